// sizes: 3 900
// steps: 5318 1221925
var size = 900;
// orders on one stock, four at a time, each in a strict world; one that is refused is made again behind the others
var stock = {}, made = 0, again = 0, open, k, j, i, all = 0;
function take(name, n) { if (stock[name] < n) { stock[name] = 50; stock.bought += 1; } stock[name] -= n; }
function order(k) {
  for (var j = 0; j < 3; j++) take("i" + (k * 3 + j * 5) % 40, 1 + (k + j) % 4);
  stock.total = stock.total + k % 10;
}
function apart(k) {
  for (var j = 0; j < 6; j++) take("i" + (k % 4 * 10 + (k + j) % 10), 1 + j % 3);
}
function begin(w, k) { in w { if (k % 8 < 4) apart(k); else order(k); } }
for (k = 0; k < 40; k++) stock["i" + k] = 50;
stock.total = stock.bought = 0;
for (k = 0; k < size; k++) {
  open = [];
  for (j = 0; j < 4; j++) { open[j] = thisWorld.sproutStrict(); begin(open[j], k * 4 + j); }
  for (j = 0; j < 4; j++) {
    try { open[j].commit(); made++; }
    catch (e) { again++; i = thisWorld.sproutStrict(); begin(i, k * 4 + j); i.commit(); }
  }
}
for (k = 0; k < 40; k++) all = (all * 7 + stock["i" + k]) % 1000003;
print(made + " " + again + " " + stock.total + " " + stock.bought + " " + all);
