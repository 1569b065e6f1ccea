// kind: exceptions
// sizes: 30 5000
// steps: 9039 1515554
var size = 5000;
function Stop(at) { this.at = at; }
function dive(n, at) {
  if (n == at) throw new Stop(n);
  return dive(n + 1, at) + 1;
}
function first(list, wanted) {
  try {
    for (var i = 0; i < list.length; i++) if (list[i] == wanted) throw i;
  } catch (e) { return e; }
  return -1;
}
var closed = 0;
function guarded(k) {
  try {
    if (k % 3 == 0) return "a";
    if (k % 3 == 1) null.x;
    return undefined_name;
  } catch (e) {
    return e instanceof TypeError ? "t" : e instanceof ReferenceError ? "r" : "?";
  } finally { closed++; }
}
var i, sum = 0, kinds = {a: 0, t: 0, r: 0}, list = [9, 8, 7, 6, 5, 4, 3, 2, 1, 0];
for (i = 0; i < size; i++) {
  try { dive(0, i % 12); } catch (e) { if (!(e instanceof Stop)) throw e; sum += e.at; }
  sum += first(list, i % 11);
  kinds[guarded(i)]++;
  outer: for (var j = 0; j < 3; j++) {
    for (;;) {
      try { if (j == 1) continue outer; if (j == 2) break outer; break; } finally { sum += j; }
    }
  }
}
print(sum + " " + closed + " " + kinds.a + " " + kinds.t + " " + kinds.r);
