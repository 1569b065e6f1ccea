// kind: objects and properties
// sizes: 20 2000
// steps: 11951 2230617
var size = 2000;
// a search tree of objects, and shapes whose methods are found in prototypes one and two up
function Node(key) { this.key = key; this.left = this.right = null; this.count = 1; }
Node.prototype.insert = function (key) {
  var at = this;
  for (;;) {
    at.count++;
    if (key < at.key) { if (!at.left) { at.left = new Node(key); return; } at = at.left; }
    else { if (!at.right) { at.right = new Node(key); return; } at = at.right; }
  }
};
Node.prototype.has = function (key) {
  for (var at = this; at; at = key < at.key ? at.left : at.right) if (at.key == key) return true;
  return false;
};
function depth(at) { return at ? 1 + Math.max(depth(at.left), depth(at.right)) : 0; }
var root = new Node(500), x = 1, i, found = 0;
for (i = 0; i < size; i++) { x = (x * 75 + 74) % 65537; root.insert(x % 1000); }
for (i = 0; i < size * 3; i++) if (root.has(i % 1000)) found++;
print(root.count + " " + found + " " + depth(root));
function Shape(name) { this.name = name; }
Shape.prototype.unit = 1;
Shape.prototype.area = function () { return 0; };
Shape.prototype.scaled = function (k) { return this.area() * k * this.unit; };
function Square(side) { Shape.call(this, "square"); this.side = side; }
Square.prototype = new Shape("");
Square.prototype.area = function () { return this.side * this.side; };
function Slab(a, b) { Shape.call(this, "slab"); this.a = a; this.b = b; }
Slab.prototype = new Shape("");
Slab.prototype.area = function () { return this.a * this.b; };
Slab.prototype.unit = 2;
var shapes = [new Square(3), new Slab(2, 5), new Shape("point"), new Square(4)], sum = 0, seen = {};
for (i = 0; i < size * 4; i++) {
  var s = shapes[i % 4];
  sum += s.scaled(i % 5);
  if (s instanceof Square) sum++;
  seen[s.name] = (seen[s.name] || 0) + 1;
}
print(sum + " " + seen.square + " " + seen.slab + " " + seen.point);
