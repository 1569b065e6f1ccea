// sizes: 30 1000
// steps: 51943 1136556
var size = 1000;
// the same by layers, each over the last
function Ground(map) { this.map = map; }
Ground.prototype.get = function (name) { return this.map[name]; };
function Layer(above) { this.above = above; this.seen = {}; this.own = {}; }
Layer.prototype.get = function (name) {
  for (var at = this; at.own; at = at.above) {
    if (name in at.own) return this.seen[name] = at.own[name];
    if (name in at.seen) return this.seen[name] = at.seen[name];
  }
  return this.seen[name] = at.get(name);
};
Layer.prototype.set = function (name, v) { this.own[name] = v; };
var cells = {}, layers = [new Ground(cells)], i;
function edit(layer, k) {
  layer.set("c" + k * 7 % 100, layer.get("c" + k * 7 % 100) + k);
  layer.set("c" + (k * 3 + 1) % 100, layer.get("c" + k * 7 % 100) % 1000);
}
function sum(layer) { for (var all = 0, i = 0; i < 100; i += 9) all += layer.get("c" + i) * i; return all; }
function last() { return layers[layers.length - 1]; }
for (i = 0; i < 100; i++) cells["c" + i] = i;
for (i = 1; i <= size; i++) { layers[i] = new Layer(last()); edit(last(), i); }
print(sum(last()));
for (i = 0; i < 9; i++) { layers.length -= (size - size % 10) / 10; print(sum(last())); }
for (i = 1; i <= size / 10; i++) { layers[layers.length] = new Layer(last()); edit(last(), i * 5); }
print(sum(last()) + " " + sum(layers[0]));
