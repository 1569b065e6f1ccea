var a = 1, b = "s", c = [7], d = null, k, keys, o = {p: 1, q: "z"}, o2 = {p: 0, q: 5, r: "w"}, arr = [3, "4", null, 8];
var odd = {x: 9, toString: function () { log("text"); return "TO"; }};
function count(x) { log(arguments.length); log(x); return this === o; }
function make(v) { var n = 0; return {p: v, x: function () { n++; return n; }, valueOf: function () { log("value"); return n; }}; }
function F(x) { this.x = x; if (x === 3) return o2; if (x === 5) return 5; }
F.prototype.q = "fq";
function H() { this.y = 1; }
H.prototype = new F(2);
