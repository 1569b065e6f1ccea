// kind: loops
// sizes: 60 4000
// steps: 31626 2325336
var size = 4000;
// nothing is local: each name is a property of the global object
var a, b, t, i, j, sum = 0, low = 0, high = 0, bits = 0, x = 12345;
for (i = 1; i < size; i++) {
  a = i; b = size;
  while (b) { t = a % b; a = b; b = t; }
  sum += a;
}
print(sum);
for (i = 0; i < size * 4; i++) {
  x = (x * 1103 + 12345) % 65536;
  if (x < 32768) low++; else high++;
  t = x;
  for (j = 0; t && j < 4; j++) { bits += t & 1; t >>>= 4; }
}
print(low + " " + high + " " + bits);
counted = 0;
do { counted += size; counted--; } while (counted < size * size);
print(counted);
