function main() {
  var a = 1, b = 7;
  for (var i = 0; i < 200000000; i = (i + 1) | 0) {
    a = ((a + b) | 0) ^ i;
    b = (b - (a >> 3)) | 0;
  }
  console.log(a + " " + b);
}
main();
