// sizes: 20 4500
// steps: 14090 1165450
var size = 4500;
// work in the last of 654 nested worlds, each a child of the one before it: what it reads first, no world below the first has
var cells = [], last = thisWorld, i;
function Sum() { this.all = 0; }
Sum.prototype.add = function (n) { this.all += n; return this; };
function work(n) {
  var sum = new Sum(), own = [], i, j;
  for (i = 0; i < n; i++) {
    own[i % 50] = cells[i % 64] + i;
    for (j = 0; j < 8; j++) sum.add(own[(i + j) % 50] ? j : i);
    cells[i % 64] = own[i % 50] % 1000;
  }
  return sum.all;
}
for (i = 0; i < 64; i++) cells[i] = i * i % 31;
for (i = 0; i < 654; i++) last = last.sprout();
in last { print(work(size)); print(cells[9]); }
print(cells[9]);
