// sizes: 3 900
// steps: 12014 3372064
var size = 900;
// the same by layers: each keeps what it has seen and changed, a name that it changes unseen too
function Layer(map) { this.map = map; this.seen = {}; this.own = {}; }
Layer.prototype.get = function (name) {
  if (name in this.own) return this.own[name];
  if (name in this.seen) return this.seen[name];
  return this.seen[name] = this.map[name];
};
Layer.prototype.set = function (name, v) {
  if (!(name in this.own) && !(name in this.seen)) this.seen[name] = this.map[name];
  this.own[name] = v;
};
Layer.prototype.commit = function () {
  var name;
  for (name in this.seen) if (this.map[name] !== this.seen[name]) return false;
  for (name in this.own) this.map[name] = this.own[name];
  return true;
};
var stock = {}, made = 0, again = 0, open, k, j, i, all = 0;
function take(layer, name, n) {
  if (layer.get(name) < n) { layer.set(name, 50); layer.set("bought", layer.get("bought") + 1); }
  layer.set(name, layer.get(name) - n);
}
function order(layer, k) {
  for (var j = 0; j < 3; j++) take(layer, "i" + (k * 3 + j * 5) % 40, 1 + (k + j) % 4);
  layer.set("total", layer.get("total") + k % 10);
}
function apart(layer, k) {
  for (var j = 0; j < 6; j++) take(layer, "i" + (k % 4 * 10 + (k + j) % 10), 1 + j % 3);
}
function run(layer, k) { if (k % 8 < 4) apart(layer, k); else order(layer, k); return layer; }
for (k = 0; k < 40; k++) stock["i" + k] = 50;
stock.total = stock.bought = 0;
for (k = 0; k < size; k++) {
  open = [];
  for (j = 0; j < 4; j++) open[j] = run(new Layer(stock), k * 4 + j);
  for (j = 0; j < 4; j++) {
    if (open[j].commit()) made++;
    else { again++; i = run(new Layer(stock), k * 4 + j); i.commit(); }
  }
}
for (k = 0; k < 40; k++) all = (all * 7 + stock["i" + k]) % 1000003;
print(made + " " + again + " " + stock.total + " " + stock.bought + " " + all);
