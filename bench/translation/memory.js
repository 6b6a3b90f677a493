// Told at the end: the most of the heap that was in use after a collection, looked at whenever something is written.
var fs = require("fs"), most = 0, write = fs.writeSync, end = process.exit;
function look() { gc(); most = Math.max(most, process.memoryUsage().heapUsed); }
fs.writeSync = function (fd, bytes, at) { look(); return write(fd, bytes, at); };
process.exit = function (code) { look(); write(2, "used " + most + "\n"); end(code); };
process.on("exit", function () { if (most === 0) { look(); write(2, "used " + most + "\n"); } });
