// kind: objects and properties
// sizes: 60 5000
// steps: 14048 1061328
var size = 5000;
function Point(x, y) { this.x = x; this.y = y; }
function walk(n) {
  var first = null, p, i;
  for (i = 0; i < n; i++) { p = new Point(i, i * 2); p.next = first; first = p; }
  var sum = 0;
  for (p = first; p != null; p = p.next) sum += p.x + p.y;
  return sum;
}
print(walk(size * 2));
var counts = {}, i, key, kinds = 0, all = 0;
for (i = 0; i < size * 4; i++) {
  key = "k" + i % 100;
  counts[key] = (counts[key] || 0) + 1;
}
for (key in counts) { kinds++; all += counts[key]; }
print(kinds + " " + all);
