// kind: texts
// sizes: 1 10
// steps: 107498 1074269
var size = 10;
function words(n, from) {
  var t = "", i;
  for (i = 0; i < n; i++) t += "w" + (i + from) % 50 + ",";
  return t;
}
function looked(t) {
  var places = 0, at = t.indexOf("w7,"), sum = 0, i;
  while (at >= 0) { places++; at = t.indexOf("w7,", at + 1); }
  for (i = 0; i < t.length; i++) sum += t.charCodeAt(i);
  return t.length + " " + places + " " + sum + " " + t.split(",").length + " " + t.substring(10, 20);
}
for (var round = 0; round < size; round++) print(looked(words(1500, round * 7)));
