// kind: library array functions
// sizes: 3 43
// steps: 17795 1059165
var size = 43;
// breadth first through a grid by a queue, brackets by a stack, and lines that are edited
function distances(width, height) {
  var far = [], queue = [[0, 0]], ways = [[1, 0], [0, 1], [-1, 0], [0, -1]], at, i, x, y, most = 0;
  far[0] = 0;
  while (queue.length) {
    at = queue.shift();
    for (i = 0; i < 4; i++) {
      x = at[0] + ways[i][0]; y = at[1] + ways[i][1];
      if (x < 0 || y < 0 || x >= width || y >= height || (x * 7 + y * 5) % 6 == 0) continue;
      if (far[y * width + x] === void 0) {
        far[y * width + x] = far[at[1] * width + at[0]] + 1;
        most = Math.max(most, far[y * width + x]);
        queue.push([x, y]);
      }
    }
  }
  return most;
}
function matched(text) {
  var open = [], i, c;
  for (i = 0; i < text.length; i++) {
    c = text.charAt(i);
    if (c == "(" || c == "[") open.push(c);
    else if (open.pop() != (c == ")" ? "(" : "[")) return i;
  }
  return open.length ? -1 : -2;
}
print(distances(size, size));
var tests = ["([])", "(([)])", "((((", "[()()[[]]]"], i, sum = 0;
for (i = 0; i < size * 8; i++) sum += matched(tests[i % 4]);
print(sum);
var lines = [], undone = [], taken;
for (i = 0; i < size * 6; i++) {
  if (i % 5 == 4) { taken = lines.splice(i % lines.length, 1); undone.unshift(taken[0]); }
  else lines.splice(i % (lines.length + 1), 0, "line " + i);
  if (undone.length > 3) lines = lines.concat(undone.splice(0, 2).reverse());
}
print(lines.length + " " + lines.slice(0, 4).join("|") + " " + undone.length);
