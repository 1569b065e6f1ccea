var o = {p: 1, q: "p", k: 5, m: function () { log(this === o); return o.k; }, o: {o: {p: 8}}}, get = function () { return 0; }, T;
function C(n) { this.p = n; this.x = 1; }
C.prototype.m = function () { return this.p; };
function D() { this.k1 = 1; this.k2 = 2; }
D.prototype.k2 = 0; D.prototype.k3 = 3;
function call(f) {
  if (typeof f !== "function") { log("no function"); return 0; }
  var list = [], i;
  for (i = 1; i < arguments.length; i++) list.push(arguments[i]);
  return f.apply(list.length === 1 ? o : null, list);
}
