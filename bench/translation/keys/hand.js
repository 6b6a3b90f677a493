function name(n) {
  var s = "k";
  while (n > 0) {
    s += String.fromCharCode(48 + (n % 10));
    n = (n / 10) | 0;
  }
  return s;
}
var keys = [];
for (var i = 0; i < 100000; i++) keys.push(name(i));
var m = Object.create(null), count = 0;
for (var r = 0; r < 10; r++) {
  for (var i = 0; i < keys.length; i++) {
    var k = keys[i];
    if (k in m) m[k] = (m[k] + i) | 0;
    else { m[k] = i; count++; }
  }
}
var s = 0;
for (var i = 0; i < keys.length; i++) s ^= m[keys[i]];
console.log(count + " " + s);
