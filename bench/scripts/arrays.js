// kind: arrays by index
// sizes: 20 220
// steps: 63025 1131796
var size = 220;
function sorted(n) {
  var a = [], x = 7, i, j, k;
  for (i = 0; i < n; i++) { x = (x * 75 + 74) % 65537; a[i] = x; }
  for (i = 1; i < n; i++) {
    k = a[i];
    for (j = i; j > 0 && a[j - 1] > k; j--) a[j] = a[j - 1];
    a[j] = k;
  }
  return a;
}
function place(a, x) {
  var low = 0, high = a.length, middle;
  while (low < high) {
    middle = (low + high) >> 1;
    if (a[middle] < x) low = middle + 1; else high = middle;
  }
  return low;
}
var a = sorted(size), i, sum = 0;
print(a[0] + " " + a[a.length - 1]);
for (i = 0; i < size * 12; i++) sum += place(a, i * 23);
print(sum);
var sums = [0];
for (i = 0; i < size * 60; i++) sums[i + 1] = sums[i] + i % 10;
print(sums[size] + " " + sums[sums.length - 1] + " " + sums.length);
