// Backtracking: each guess is made in a world of its own. A wrong guess is forgotten with its world, whatever it has
// led to; a right one is committed, so that in the end the first world holds the solution.

var grid = [
  0, 0, 0, 0,
  2, 0, 1, 0,
  0, 0, 0, 0,
  0, 4, 0, 3
];
var guesses = 0;  // of wrong guesses nothing is known in the end, so these are the right ones

function show() {
  for (var row = 0; row < 4; row++) print(grid.slice(4 * row, 4 * row + 4).join(" "));
}

// whether the digit may stand at the place: in no row, column or box twice
function fits(place, digit) {
  var column = place % 4, row = (place - column) / 4;
  for (var k = 0; k < 4; k++) {
    var boxRow = row - row % 2 + (k - k % 2) / 2, boxColumn = column - column % 2 + k % 2;
    if (grid[4 * row + k] == digit || grid[4 * k + column] == digit || grid[4 * boxRow + boxColumn] == digit) return false;
  }
  return true;
}

function guess(world, place, digit) {
  in world {
    grid[place] = digit;
    guesses++;
    return solve(place + 1);
  }
}

function solve(place) {
  while (place < 16 && grid[place] != 0) place++;
  if (place == 16) return true;
  for (var digit = 1; digit <= 4; digit++) {
    if (!fits(place, digit)) continue;
    var world = thisWorld.sprout();
    if (guess(world, place, digit)) { world.commit(); return true; }
  }
  return false;
}

print(solve(0));
show();
print(guesses + " right guesses");
