// kind: arrays by index
// sizes: 1 22
// steps: 89256 1609763
var size = 22;
// a game of life on a torus in one array, and products of matrices, which are arrays of arrays
function life(width, height, turns) {
  var now = [], next = [], x, y, i, n, up, down, left, right, t;
  for (i = 0; i < width * height; i++) now[i] = (i * i + i % 7) % 3 == 0 ? 1 : 0;
  for (t = 0; t < turns; t++) {
    for (y = 0; y < height; y++) {
      up = (y + height - 1) % height * width; down = (y + 1) % height * width;
      for (x = 0; x < width; x++) {
        left = (x + width - 1) % width; right = (x + 1) % width; i = y * width;
        n = now[up + left] + now[up + x] + now[up + right] + now[i + left] + now[i + right]
          + now[down + left] + now[down + x] + now[down + right];
        next[i + x] = n == 3 || n == 2 && now[i + x] == 1 ? 1 : 0;
      }
    }
    i = now; now = next; next = i;
  }
  for (i = n = 0; i < now.length; i++) n += now[i] * (i + 1);
  return n;
}
function matrix(n, k) {
  for (var rows = [], i = 0, j; i < n; i++) for (rows[i] = [], j = 0; j < n; j++) rows[i][j] = (i * k + j) % 10;
  return rows;
}
function product(a, b) {
  var n = a.length, out = [], i, j, k, sum;
  for (i = 0; i < n; i++) {
    out[i] = [];
    for (j = 0; j < n; j++) {
      for (sum = k = 0; k < n; k++) sum += a[i][k] * b[k][j];
      out[i][j] = sum % 1009;
    }
  }
  return out;
}
print(life(20, 16, size));
var p = matrix(12, 3), i, trace = 0;
for (i = 0; i < size; i++) p = product(p, matrix(12, i));
for (i = 0; i < 12; i++) trace += p[i][i];
print(trace);
