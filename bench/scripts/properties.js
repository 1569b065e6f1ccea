// kind: objects and properties
// sizes: 1 14
// steps: 152937 1780083
var size = 14;
// maps of 10, 100 and 1,000 names: looks, changes, `in`, `delete`, `for`-`in`
var names = [], i;
for (i = 0; i < 1000; i++) names[i] = "name" + i;
function filled(n) {
  for (var map = {}, i = 0; i < n; i++) map[names[i]] = i;
  return map;
}
function used(map, n, times) {
  var sum = 0, i, name, there = 0;
  for (i = 0; i < times; i++) {
    name = names[i * 7 % n];
    sum += map[name];
    map[name] = i;
    if (names[i * 3 % (2 * n) % 1000] in map) there++;
    if (i % 4 == 0) { delete map[name]; map[name] = 1; }
  }
  return sum + there;
}
function listed(map, times) {
  for (var t = 0, n = 0, sum = 0, name; t < times; t++) for (name in map) { n++; sum += map[name]; }
  return n + ":" + sum;
}
var ten = filled(10), hundred = filled(100), thousand = filled(1000);
print(used(ten, 10, size * 500) + " " + used(hundred, 100, size * 500) + " " + used(thousand, 1000, size * 500));
print(listed(ten, size * 60) + " " + listed(hundred, size * 6) + " " + listed(thousand, size));
var o = {a: 1, b: {c: {d: 2}}}, k = "a", sum = 0;
for (i = 0; i < size * 500; i++) { o.a += o.b.c.d; o.b.c.d ^= 1; sum += o[k] & 7; k = k == "a" ? "missing" : "a"; }
print(sum);
