// sizes: 20 500
// steps: 37616 193328
var size = 500;
// siblings move sums between 1,000 accounts, each in a world of its own, and are committed one after another
var accounts = {}, worlds = [], moved = 0, refused = 0, all = 0, i;
function move(from, to, sum) {
  if (accounts[from] < sum) return;
  accounts[from] -= sum;
  accounts[to] += sum;
}
function work(w, k) {
  in w {
    for (var j = 0; j < 6; j++) move("a" + 2 * k, "a" + (2 * k + 1), 10 + j);
    if (k % 5 == 4) move("a" + (2 * k - 2), "a" + 2 * k, 5);
  }
}
for (i = 0; i < 1000; i++) accounts["a" + i] = 100;
for (i = 0; i < size; i++) worlds[i] = thisWorld.sprout();
for (i = 0; i < size; i++) work(worlds[i], i);
for (i = 0; i < size; i++) { try { worlds[i].commit(); moved++; } catch (e) { refused++; } }
for (i = 0; i < 1000; i++) all += accounts["a" + i] * (i % 10);
print(moved + " " + refused + " " + all);
