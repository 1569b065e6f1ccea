// sizes: 2 300
// steps: 8004 1134145
var size = 300;
// maps coloured by search: a choice stands in a child of the last one's world, and is committed where the rest can be coloured
var colour = [];
function near(at, other, map) { return (at * 5 + other * 3 + map) % 7 < 3; }
function fits(at, c, map) {
  for (var i = 0; i < at; i++) if (colour[i] == c && near(at, i, map)) return false;
  return true;
}
function chosen(w, at, c, map) {
  in w { colour[at] = c; if (!coloured(at + 1, map)) return false; }
  w.commit();
  return true;
}
function coloured(at, map) {
  if (at == 12) return true;
  for (var c = 0; c < 5; c++) if (fits(at, c, map) && chosen(thisWorld.sprout(), at, c, map)) return true;
  return false;
}
var map, found = 0, text = "";
for (map = 0; map < size; map++) {
  if (coloured(0, map)) { found++; text = colour.join(""); }
  colour.length = 0;
}
print(found + " " + text);
