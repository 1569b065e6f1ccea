// kind: searches by recursion
// sizes: 5 9
// steps: 9750 2257961
var size = 9;
// all places of queens: columns and diagonals are marked, and marks are taken back
function all(n) {
  var columns = [], up = [], down = [], found = 0, tried = 0;
  function place(r) {
    if (r == n) { found++; return; }
    for (var c = 0; c < n; c++) {
      tried++;
      if (columns[c] || up[r + c] || down[r - c + n]) continue;
      columns[c] = up[r + c] = down[r - c + n] = true;
      place(r + 1);
      columns[c] = up[r + c] = down[r - c + n] = false;
    }
  }
  place(0);
  return found + " of " + tried;
}
print(all(size - 1));
print(all(size));
