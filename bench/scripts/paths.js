// kind: searches by recursion
// sizes: 3 5
// steps: 32930 2624110
var size = 5;
// knights on a board, colours of a map, and words in a grid of letters
function tours(n, most) {
  var board = [], dx = [1, 2, 2, 1, -1, -2, -2, -1], dy = [-2, -1, 1, 2, 2, 1, -1, -2], tries = 0, found = 0;
  for (var i = 0; i < n * n; i++) board[i] = 0;
  function go(x, y, step) {
    if (tries >= most) return;
    tries++;
    board[y * n + x] = step;
    if (step == n * n) found++;
    for (var k = 0; k < 8; k++) {
      var u = x + dx[k], v = y + dy[k];
      if (u >= 0 && v >= 0 && u < n && v < n && !board[v * n + u]) go(u, v, step + 1);
    }
    board[y * n + x] = 0;
  }
  go(0, 0, 1);
  return found + " " + tries;
}
function colourings(near, colours) {
  var given = [], n = near.length;
  function fits(at, c) {
    for (var i = 0; i < near[at].length; i++) if (given[near[at][i]] == c) return false;
    return true;
  }
  return (function colour(at) {
    if (at == n) return 1;
    for (var c = 1, ways = 0; c <= colours; c++) {
      if (!fits(at, c)) continue;
      given[at] = c;
      ways += colour(at + 1);
      given[at] = 0;
    }
    return ways;
  })(0);
}
print(tours(size, size * 1500));
var near = [[1, 2], [0, 2, 3], [0, 1, 3, 4], [1, 2, 4], [2, 3, 5], [4, 6], [5]];
print(colourings(near, size - 1));
var rows = ["abcab", "cabca", "bcabc", "abcca", "caabb"];
function spelt(word, at, x, y, used) {
  if (at == word.length) return 1;
  if (x < 0 || y < 0 || x > 4 || y > 4 || used[y * 5 + x] || rows[y].charAt(x) != word.charAt(at)) return 0;
  used[y * 5 + x] = true;
  var n = spelt(word, at + 1, x + 1, y, used) + spelt(word, at + 1, x - 1, y, used)
    + spelt(word, at + 1, x, y + 1, used) + spelt(word, at + 1, x, y - 1, used);
  used[y * 5 + x] = false;
  return n;
}
for (var x = 0, n = 0; x < 5; x++) for (var y = 0; y < 5; y++) n += spelt("abcabcab".substring(0, size + 3), 0, x, y, []);
print(n);
