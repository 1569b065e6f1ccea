// kind: arrays by index
// sizes: 40 2200
// steps: 16977 1568359
var size = 2200;
function sift(a, at, n) {
  var x = a[at], child;
  while ((child = 2 * at + 1) < n) {
    if (child + 1 < n && a[child + 1] > a[child]) child++;
    if (a[child] <= x) break;
    a[at] = a[child];
    at = child;
  }
  a[at] = x;
}
function heapsort(a) {
  var n = a.length, i, t;
  for (i = n >> 1; i-- > 0; ) sift(a, i, n);
  for (i = n - 1; i > 0; i--) { t = a[0]; a[0] = a[i]; a[i] = t; sift(a, 0, i); }
}
function sieve(below) {
  var crossed = new Array(below), n, m, found = 0;
  for (n = 2; n < below; n++) {
    if (crossed[n]) continue;
    found++;
    for (m = n * n; m < below; m += n) crossed[m] = true;
  }
  return found;
}
var a = [], x = 1, i, rising = true;
for (i = 0; i < size; i++) { x = (x * 16807) % 2147483647; a[i] = x % 10000; }
heapsort(a);
for (i = 1; i < size; i++) rising = rising && a[i - 1] <= a[i];
print(rising + " " + a[0] + " " + a[size >> 1] + " " + a[size - 1]);
print(sieve(size * 5));
