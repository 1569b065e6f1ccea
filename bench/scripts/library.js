// kind: library array functions
// sizes: 4 400
// steps: 13699 1454971
var size = 400;
var a = [], b, i, sum = 0, t = "";
for (i = 0; i < size * 20; i++) a.push(i);
while (a.length > size) sum += a.pop();
print(sum);
for (i = 0; i < size; i++) { b = [i, i + 1, i + 2]; b.unshift(7); sum += b.shift() + b[1]; b.push(1, 2); sum += b.length; }
print(sum);
for (i = 0; i < size; i++) {
  b = a.slice(i % 50, i % 50 + 6);
  b.splice(1, 2, "x");
  b = b.concat([i, i + 1], i);
  b.reverse();
  if (i % 10 == 0) t += b.join("-") + ";";
}
print(t.substring(0, 60) + " " + t.length);
b = [];
for (i = 0; i < size * 2; i++) b.push([i % 9, "n" + i].join(":"));
print(b.slice(-3) + " " + String(b).length);
