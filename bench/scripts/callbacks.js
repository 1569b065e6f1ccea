// kind: closures
// sizes: 20 700
// steps: 78671 2579020
var size = 700;
function each(list, f) { for (var i = 0; i < list.length; i++) f(list[i], i); }
function map(list, f) { var out = []; each(list, function (x, i) { out[i] = f(x); }); return out; }
function filter(list, f) { var out = []; each(list, function (x) { if (f(x)) out[out.length] = x; }); return out; }
function fold(list, f, start) { var acc = start; each(list, function (x) { acc = f(acc, x); }); return acc; }
function range(from, to) {
  var at = from;
  return function () { return at < to ? at++ : null; };
}
function picked(next, f) {
  return function () {
    var x;
    while ((x = next()) !== null) if (f(x)) return x;
    return null;
  };
}
function remembered(f) {
  var known = {};
  return function (x) { return x in known ? known[x] : (known[x] = f(x)); };
}
var list = [], i, x, n = 0;
for (i = 0; i < 40; i++) list[i] = (i * 37) % 41;
for (i = 0; i < size; i++) {
  var scaled = map(list, function (x) { return x * 2 + i; });
  n = (n + fold(filter(scaled, function (x) { return x % 3 != 0; }), function (a, b) { return a + b; }, 0)) % 1000003;
}
print(n);
var next = picked(picked(range(0, size * 10), function (x) { return x % 2 == 1; }), function (x) { return x % 5 != 0; });
for (n = 0; (x = next()) !== null; ) n += x;
print(n);
var slow = remembered(function (x) { for (var s = 0; x > 0; x--) s += x; return s; });
for (i = n = 0; i < size * 5; i++) n += slow(i % 30);
print(n);
