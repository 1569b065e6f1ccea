// sizes: 30 1000
// steps: 6825 91603
var size = 1000;
// each edit stands in a child of the last; to undo is to go back to an older world
var cells = {}, worlds = [thisWorld], i;
function edit(w, k) { in w { cells["c" + k * 7 % 100] += k; cells["c" + (k * 3 + 1) % 100] = cells["c" + k * 7 % 100] % 1000; } }
function sum(w) { in w { for (var all = 0, i = 0; i < 100; i += 9) all += cells["c" + i] * i; return all; } }
function last() { return worlds[worlds.length - 1]; }
for (i = 0; i < 100; i++) cells["c" + i] = i;
for (i = 1; i <= size; i++) { worlds[i] = last().sprout(); edit(last(), i); }
print(sum(last()));
for (i = 0; i < 9; i++) { worlds.length -= (size - size % 10) / 10; print(sum(last())); }
for (i = 1; i <= size / 10; i++) { worlds[worlds.length] = last().sprout(); edit(last(), i * 5); }
print(sum(last()) + " " + sum(worlds[0]));
