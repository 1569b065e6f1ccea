// kind: exceptions
// sizes: 30 3000
// steps: 11847 1146951
var size = 3000;
// records are checked by parts; what is wrong is thrown as an object, told more of on its way, and counted
function Fault(what, path) { this.what = what; this.path = path; }
Fault.prototype = new Error("fault");
Fault.prototype.within = function (name) { return new Fault(this.what, name + "." + this.path); };
function number(low, high) {
  return function (v) {
    if (typeof v != "number") throw new Fault("no number", "");
    if (v < low || v > high) throw new Fault("out of range", "");
  };
}
function text(v) { if (typeof v != "string") throw new Fault("no text", ""); }
function list(check) {
  return function (v) {
    for (var i = 0; i < v.length; i++) {
      try { check(v[i]); } catch (e) { throw e instanceof Fault ? e.within(i) : e; }
    }
  };
}
function record(checks) {
  return function (v) {
    for (var name in checks) {
      try { checks[name](v[name]); } catch (e) {
        if (e instanceof Fault) throw e.within(name);
        throw new Fault("broken", name);
      }
    }
  };
}
var place = record({x: number(0, 100), y: number(0, 100)});
var check = record({name: text, parts: list(list(number(0, 9))), place: place, way: list(place)});
var told = {}, good = 0, open = 0, i;
for (i = 0; i < size; i++) {
  var it = {name: i % 7 == 0 ? i : "n" + i, place: {x: i % 120, y: 3}, way: [{x: 1, y: 2}, {x: 3, y: i % 11 == 0 ? "4" : 4}]};
  if (i % 13 != 0) it.parts = [[1, 2], [3, i % 17]];
  open++;
  try { check(it); good++; }
  catch (e) { var key = e.what + " " + e.path; told[key] = (told[key] || 0) + 1; }
  finally { open--; }
}
print(good + " " + open);
print(told["no text name."] + " " + told["out of range place.x."] + " " + told["no number way.1.y."] + " " + told["out of range parts.1.1."] + " " + told["broken parts"]);
