// kind: calls
// sizes: 4 12
// steps: 92843 1401687
var size = 12;
// calls within arguments, functions that call each other, and methods found two prototypes up
function tak(x, y, z) {
  return y >= x ? z : tak(tak(x - 1, y, z), tak(y - 1, z, x), tak(z - 1, x, y));
}
function ack(m, n) {
  return m == 0 ? n + 1 : n == 0 ? ack(m - 1, 1) : ack(m - 1, ack(m, n - 1));
}
function even(n) { return n == 0 ? true : odd(n - 1); }
function odd(n) { return n == 0 ? false : even(n - 1); }
function moves(n, from, to, over) {
  if (n == 0) return 0;
  return moves(n - 1, from, over, to) + 1 + moves(n - 1, over, to, from);
}
function Base(k) { this.k = k; }
Base.prototype.part = function (x) { return x % this.k; };
Base.prototype.whole = function (x) { return x - this.part(x); };
function Derived(k) { Base.call(this, k); }
Derived.prototype = new Base(0);
Derived.prototype.twice = function (x) { return this.whole(x) + this.whole(x + 1); };
print(tak(size, size - 4, 1));
for (var n = 0, k = 0; k < size; k++) n += ack(2, size - k % 3);
print(n);
for (k = 0; k < size; k++) if (even(size * 3 + k) && !odd(size * 2)) n++;
print(n);
print(moves(size, "a", "b", "c"));
var it = new Derived(9), sum = 0, i;
for (i = 0; i < size * 400; i++) sum += it.twice(i);
print(sum);
