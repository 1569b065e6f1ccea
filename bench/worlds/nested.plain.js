// sizes: 20 4500
// steps: 7637 1158997
var size = 4500;
// the same in the first world, on a copy of the cells
var cells = [], first, i;
function Sum() { this.all = 0; }
Sum.prototype.add = function (n) { this.all += n; return this; };
function work(n) {
  var sum = new Sum(), own = [], i, j;
  for (i = 0; i < n; i++) {
    own[i % 50] = cells[i % 64] + i;
    for (j = 0; j < 8; j++) sum.add(own[(i + j) % 50] ? j : i);
    cells[i % 64] = own[i % 50] % 1000;
  }
  return sum.all;
}
for (i = 0; i < 64; i++) cells[i] = i * i % 31;
first = cells.slice(0);
print(work(size));
print(cells[9]);
print(first[9]);
