// sizes: 5 8
// steps: 21716 1933345
var size = 8;
// all places of queens; each that is tried stands in a copy of its own
function safe(row, r, c) {
  for (var i = 0; i < r; i++) if (row[i] == c || row[i] - c == i - r || row[i] - c == r - i) return false;
  return true;
}
function place(row, r) {
  if (r == size) return 1;
  for (var found = 0, c = 0; c < size; c++) {
    if (!safe(row, r, c)) continue;
    var tried = row.slice(0);
    tried[r] = c;
    found += place(tried, r + 1);
  }
  return found;
}
print(place([], 0));
