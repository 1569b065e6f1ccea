// sizes: 30 1800
// steps: 16903 1015131
var size = 1800;
// plain work in a child of the first world, in a child of that, and in strict ones: loops, calls, objects, elements
function Cell(v, next) { this.v = v; this.next = next; }
function work(n) {
  var list = null, sum = 0, a = [], i, at;
  for (i = 0; i < n; i++) { list = new Cell(i, list); a[i] = i * i % 17; }
  for (at = list; at; at = at.next) sum += at.v % 5;
  for (i = 1; i < n; i++) if (a[i] < a[i - 1]) { sum += a[i]; a[i] = a[i - 1]; }
  for (i = 0; i < n * 5; i++) sum += i & 3;
  return sum;
}
var w = thisWorld.sprout(), v = w.sprout(), s = thisWorld.sproutStrict();
in w { print(work(size)); }
in v { print(work(size)); }
in s { print(work(size)); print(work(size)); }
s.commit();
print(typeof list + " " + size);
