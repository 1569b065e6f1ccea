// sizes: 30 1800
// steps: 16876 1015104
var size = 1800;
// the same in the first world
function Cell(v, next) { this.v = v; this.next = next; }
function work(n) {
  var list = null, sum = 0, a = [], i, at;
  for (i = 0; i < n; i++) { list = new Cell(i, list); a[i] = i * i % 17; }
  for (at = list; at; at = at.next) sum += at.v % 5;
  for (i = 1; i < n; i++) if (a[i] < a[i - 1]) { sum += a[i]; a[i] = a[i - 1]; }
  for (i = 0; i < n * 5; i++) sum += i & 3;
  return sum;
}
print(work(size));
print(work(size));
print(work(size));
print(work(size));
print(typeof list + " " + size);
