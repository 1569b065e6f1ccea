// sizes: 20 500
// steps: 47869 448669
var size = 500;
// the same by layers: each keeps what it has seen and changed, and hands its changes on where what it has seen stands still
function Ground(map) { this.map = map; }
Ground.prototype.get = function (name) { return this.map[name]; };
Ground.prototype.set = function (name, v) { this.map[name] = v; };
function Layer(above) { this.above = above; this.seen = {}; this.own = {}; }
Layer.prototype.get = function (name) {
  if (name in this.own) return this.own[name];
  if (name in this.seen) return this.seen[name];
  return this.seen[name] = this.above.get(name);
};
Layer.prototype.set = function (name, v) { this.own[name] = v; };
Layer.prototype.commit = function () {
  var name;
  for (name in this.seen) if (this.above.get(name) !== this.seen[name]) return false;
  for (name in this.own) this.above.set(name, this.own[name]);
  this.seen = {};
  this.own = {};
  return true;
};
var accounts = {}, ground = new Ground(accounts), layers = [], moved = 0, refused = 0, all = 0, i;
function move(layer, from, to, sum) {
  if (layer.get(from) < sum) return;
  layer.set(from, layer.get(from) - sum);
  layer.set(to, layer.get(to) + sum);
}
function work(layer, k) {
  for (var j = 0; j < 6; j++) move(layer, "a" + 2 * k, "a" + (2 * k + 1), 10 + j);
  if (k % 5 == 4) move(layer, "a" + (2 * k - 2), "a" + 2 * k, 5);
}
for (i = 0; i < 1000; i++) accounts["a" + i] = 100;
for (i = 0; i < size; i++) layers[i] = new Layer(ground);
for (i = 0; i < size; i++) work(layers[i], i);
for (i = 0; i < size; i++) { if (layers[i].commit()) moved++; else refused++; }
for (i = 0; i < 1000; i++) all += accounts["a" + i] * (i % 10);
print(moved + " " + refused + " " + all);
