// kind: searches by recursion
// sizes: 6 14
// steps: 28942 1449462
var size = 14;
// sums of subsets with a bound, permutations by swaps, and ways to pay that are remembered
function subsets(values, at, left) {
  if (left == 0) return 1;
  if (at == values.length || left < 0) return 0;
  return subsets(values, at + 1, left - values[at]) + subsets(values, at + 1, left);
}
function best(items, at, room, worth, most) {
  if (at == items.length) return worth > most ? worth : most;
  var rest = 0, i;
  for (i = at; i < items.length; i++) rest += items[i].worth;
  if (worth + rest <= most) return most;
  if (items[at].size <= room) most = best(items, at + 1, room - items[at].size, worth + items[at].worth, most);
  return best(items, at + 1, room, worth, most);
}
function permutations(a, from, wanted) {
  if (from == a.length) return a[0] < a[a.length - 1] ? wanted(a) : 0;
  for (var n = 0, i = from, t; i < a.length; i++) {
    t = a[from]; a[from] = a[i]; a[i] = t;
    n += permutations(a, from + 1, wanted);
    a[i] = a[from]; a[from] = t;
  }
  return n;
}
function ways(sum, coins, at, known) {
  if (sum == 0) return 1;
  if (sum < 0 || at == coins.length) return 0;
  var key = sum * 10 + at;
  if (known[key] === void 0) known[key] = ways(sum - coins[at], coins, at, known) + ways(sum, coins, at + 1, known);
  return known[key];
}
var values = [], items = [], digits = [], i;
for (i = 0; i < size; i++) { values[i] = 3 + i * 7 % 11; items[i] = {size: 2 + i * 5 % 9, worth: 3 + i * 4 % 13}; }
for (i = 0; i < size / 2; i++) digits[i] = i + 1;
print(subsets(values, 0, size * 3));
print(best(items, 0, size * 2, 0, 0));
print(permutations(digits, 0, function (a) { return (a[0] + a[1]) % 3 == 0 ? 1 : 0; }));
print(ways(size * 20, [50, 20, 10, 5, 2, 1], 0, {}));
