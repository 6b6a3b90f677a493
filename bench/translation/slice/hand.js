function sum(xs) {
  var s = 0;
  for (var i = 0; i < xs.length; i++) {
    if (i >>> 0 >= xs.length) throw new Error("index");
    s = (s + (xs[i] ^ i)) | 0;
  }
  return s;
}
var xs = [];
for (var i = 0; i < 100000; i++) xs.push(Math.imul(i, 3));
var s = 0;
for (var k = 0; k < 2000; k++) s = (s + sum(xs)) | 0;
console.log(String(s));
