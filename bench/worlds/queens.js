// sizes: 5 8
// steps: 15911 1587103
var size = 8;
// all places of queens; each that is tried stands in a world of its own, and is dropped with it
var row = [];
function safe(r, c) {
  for (var i = 0; i < r; i++) if (row[i] == c || row[i] - c == i - r || row[i] - c == r - i) return false;
  return true;
}
function tried(w, r, c) { in w { row[r] = c; return place(r + 1); } }
function place(r) {
  if (r == size) return 1;
  for (var found = 0, c = 0; c < size; c++) if (safe(r, c)) found += tried(thisWorld.sprout(), r, c);
  return found;
}
print(place(0));
