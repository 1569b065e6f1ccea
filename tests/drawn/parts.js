var x = 1, y = 2, n = 0, k = "x", o = {x: 1, y: 2}, p = {z: 1, x: 5}, a = [1, 2], q = null, e1 = null, sw = thisWorld.sprout();
function F(v) { this.x = v; }
F.prototype.m = 3;
function f(v) { var l = v; x = l; return l; }
function c() { return x; }
