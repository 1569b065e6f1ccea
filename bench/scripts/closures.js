// kind: closures
// sizes: 100 20000
// steps: 6800 1285704
var size = 20000;
function counter(from) {
  var n = from;
  return {up: function () { return ++n; }, down: function () { return --n; }, told: function () { return n; }};
}
function compose(f, g) { return function (x) { return f(g(x)); }; }
function partly(f) {
  var held = [], i;
  for (i = 1; i < arguments.length; i++) held[i - 1] = arguments[i];
  return function (x) { return f.apply(this, [held[0], held[1], x]); };
}
function sum3(a, b, c) { return a + b + c + (this && this.more ? this.more : 0); }
var a = counter(0), b = counter(10), i;
for (i = 0; i < size; i++) { a.up(); if (i % 3 == 0) b.down(); }
print(a.told() + " " + b.told());
var chain = function (x) { return x; };
for (i = 0; i < 10; i++) chain = compose(chain, function (x) { return x + i; });
var sum = 0;
for (i = 0; i < size / 10; i++) sum = (sum + chain(i)) % 99991;
print(sum);
var with5 = partly(sum3, 2, 3), o = {more: 4, f: with5};
for (i = 0; i < size / 4; i++) sum += with5(i) + o.f(i) + sum3.call(o, i, 1, 1);
print(sum);
