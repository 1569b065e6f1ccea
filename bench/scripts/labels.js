// kind: loops
// sizes: 8 70
// steps: 43027 1302285
var size = 70;
// jumps out of loops by labels, switches that fall through, and loops that test behind
function triples(below) {
  var found = 0, a, b, c;
  outer: for (a = 1; a < below; a++) {
    middle: for (b = a; b < below; b++) {
      c = b + 1;
      do {
        switch (a * a + b * b - c * c) {
          case 0: found++; continue middle;
          default: if (a * a + b * b < c * c) continue middle;
        }
        if (a + b + c > 3 * below) continue outer;
        c++;
      } while (true);
    }
  }
  return found;
}
function days(month, leap) {
  var n = 0;
  switch (month) {
    case 12: n += 31;
    case 11: n += 30;
    case 10: n += 31;
    case 9: n += 30;
    case 8: n += 31;
    case 7: n += 31;
    case 6: n += 30;
    case 5: n += 31;
    case 4: n += 30;
    case 3: n += 31;
    case 2: n += leap ? 29 : 28;
    case 1: n += 31; break;
    default: return -1;
  }
  return n;
}
function steps(from) {
  var n = from, count = 0;
  walk: {
    while (n != 1) {
      if (count > 200) break walk;
      if (n & 1) { n = n * 3 + 1; count++; continue; }
      n >>= 1;
      count++;
    }
  }
  return count;
}
var all = 0, i;
print(triples(size));
for (i = 0; i < size * 40; i++) all += days(i % 14, i % 4 == 0);
print(all);
for (i = 1; i < size * 6; i++) all += steps(i);
print(all);
