function fib(n) {
  if (n < 2) return n;
  return (fib((n - 1) | 0) + fib((n - 2) | 0)) | 0;
}
console.log(String(fib(38)));
