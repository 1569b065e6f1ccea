// kind: calls
// sizes: 12 23
// steps: 47689 1193429
var size = 23;
function fib(n) { if (n < 2) return n; return fib(n - 1) + fib(n - 2); }
function Counter() { this.n = 0; }
Counter.prototype.add = function (k) { this.n = this.n + k; return this; };
function total(counter, times) {
  for (var i = 0; i < times; i++) counter.add(i).add(1);
  return counter.n;
}
print(fib(size));
print(total(new Counter(), size * 100));
