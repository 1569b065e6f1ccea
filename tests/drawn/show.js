var fuel = 40, lines = 0, KEYS = ["p", "q", "r", "x", "y", "length"];
Error.prototype.toString = function () { return "E" + this.name; };
Function.prototype.toString = function () { return "FN"; };
function show(v) {
  var t = typeof v, r, i;
  if (t === "function") return "fn";
  if (v === null) return "null";
  if (t !== "object") return t.charAt(0) + ":" + v;
  if (v instanceof Error) return v.message === "number out of range" ? v.message : v.name;
  if (Array.isArray(v)) {
    if (v.length > 20) return "[" + v.length;
    for (r = "[", i = 0; i < v.length; i++) r += (i in v ? typeof v[i] === "object" ? "{}" : show(v[i]) : "-") + ",";
    return r;
  }
  for (r = "{", i = 0; i < KEYS.length; i++) r += KEYS[i] in v ? KEYS[i] + " " + typeof v[KEYS[i]] + "," : "";
  return r;
}
function log(v) { if (lines++ < 300) print(show(v)); return v; }
