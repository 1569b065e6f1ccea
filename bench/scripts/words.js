// kind: texts
// sizes: 5 600
// steps: 10339 1124177
var size = 600;
// words counted, numbers spelled, and rows of fields put together and taken apart
var text = "It is a far better thing that I do than I have ever done; it is a far far better rest";
function count(text) {
  var words = text.split(" "), counts = {}, i, w, most = "";
  for (i = 0; i < words.length; i++) {
    w = words[i];
    if (w.indexOf(";") >= 0) w = w.substring(0, w.length - 1);
    counts[w] = (counts[w] || 0) + 1;
    if (most == "" || counts[w] > counts[most]) most = w;
  }
  return most + counts[most];
}
function roman(n) {
  var values = [100, 90, 50, 40, 10, 9, 5, 4, 1], signs = ["C", "XC", "L", "XL", "X", "IX", "V", "IV", "I"], out = "", i;
  for (i = 0; i < 9; i++) while (n >= values[i]) { out += signs[i]; n -= values[i]; }
  return out;
}
function padded(n, width) { var t = "" + n; while (t.length < width) t = "0" + t; return t; }
function parsed(row) {
  var fields = row.split(";"), sum = 0, i, at;
  for (i = 0; i < fields.length; i++) {
    at = fields[i].indexOf("=");
    if (at > 0) sum += parseInt(fields[i].slice(at + 1), 10);
  }
  return sum;
}
var i, t = "", sum = 0, extent = 0, lines = [];
for (i = 0; i < size; i++) {
  t = count(text + " it is " + i % 7);
  sum += parsed("a=" + i + ";b=" + padded(i, 6) + ";c" + ";d=" + i % 10);
  extent += roman(i % 150).length + (i * 77).toString(2).length + (i * 77).toString(16).lastIndexOf("f");
  lines[i] = padded(i, 4) + ": " + roman(i % 50) + "\t" + (t < "far" ? "<" : ">");
}
t = lines.join("\n");
print(t.length + " " + t.substring(300, 330).split("\t")[0] + " " + t.lastIndexOf("XLIX"));
print(sum + " " + extent + " " + count(text));
