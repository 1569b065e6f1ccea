// kind: texts
// sizes: 10 400
// steps: 38177 1515135
var size = 400;
// one unit after another
var alphabet = "abcdefghijklmnopqrstuvwxyz";
function shifted(text, by) {
  for (var out = "", i = 0, c; i < text.length; i++) {
    c = text.charCodeAt(i);
    out += c >= 97 && c <= 122 ? String.fromCharCode((c - 97 + by) % 26 + 97) : text.charAt(i);
  }
  return out;
}
function turned(text) { for (var out = "", i = text.length; i-- > 0; ) out += text.charAt(i); return out; }
function sameBothWays(text) {
  for (var i = 0, j = text.length - 1; i < j; i++, j--) if (text.charAt(i) != text.charAt(j)) return false;
  return true;
}
function vowels(text) {
  for (var n = 0, i = 0; i < text.length; i++) {
    switch (text.charAt(i)) { case "a": case "e": case "i": case "o": case "u": n++; }
  }
  return n;
}
function hash(text) { for (var h = 7, i = 0; i < text.length; i++) h = (h * 31 + text.charCodeAt(i)) % 1000003; return h; }
var i, t = "the quick brown fox, " + alphabet, sum = 0, both = 0;
for (i = 0; i < size; i++) {
  t = shifted(t, i % 26);
  sum = (sum + hash(t) + vowels(t)) % 1000003;
  if (i % 20 == 0) t = turned(t);
  if (sameBothWays("" + i)) both++;
}
print(t + " " + sum + " " + both);
