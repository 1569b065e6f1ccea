// sizes: 2 300
// steps: 12030 1737827
var size = 300;
// the same by copies: a choice stands in a copy of its own, and the copy of the last one is the answer
function near(at, other, map) { return (at * 5 + other * 3 + map) % 7 < 3; }
function fits(colour, at, c, map) {
  for (var i = 0; i < at; i++) if (colour[i] == c && near(at, i, map)) return false;
  return true;
}
function chosen(colour, at, c, map) {
  var mine = colour.slice(0);
  mine[at] = c;
  return coloured(mine, at + 1, map);
}
function coloured(colour, at, map) {
  if (at == 12) return colour;
  for (var c = 0, all; c < 5; c++) if (fits(colour, at, c, map) && (all = chosen(colour, at, c, map))) return all;
  return null;
}
var map, found = 0, text = "", colour;
for (map = 0; map < size; map++) if (colour = coloured([], 0, map)) { found++; text = colour.join(""); }
print(found + " " + text);
