// kind: calls
// sizes: 20 900
// steps: 40687 1827087
var size = 900;
// long bodies: many formals and locals, most of them named in statements of their own
function mixed(a, b, c, d, e, f, g, h) {
  var p = a + b, q = c - d, r = e ^ f, s = g & h, t = p, u = q, v = r, w = s, x, y, z, most;
  t = t + a * 3;
  u = u - b * 5;
  v = v ^ c;
  w = w | d;
  if (t > u) { x = t; most = "t"; } else { x = u; most = "u"; }
  if (v > w) y = v; else y = w;
  z = x + y;
  p = p + z % 7;
  q = q + z % 11;
  r = r + z % 13;
  if (most == "t") p++;
  s = s + p + q + r;
  a = s % 101; b = a + e; c = b - f; d = c + g; e = d - h;
  return a + b + c + d + e;
}
function spread(a, b, c) {
  var o = {a: a, b: b, c: c}, list = [c, b, a], sum = 0, i;
  for (i = 0; i < arguments.length; i++) sum += arguments[i] * list[i];
  return sum + o.a - o.c;
}
function few(a, b) { return spread(a, b, a & b) - spread(b, a, a | b); }
function none() { return 1; }
var all = 0, i, j;
for (i = 0; i < size; i++) {
  for (j = 0; j < 10; j++) all = (all + mixed(i, j, i + j, i - j, 5, 6, all, i * j)) % 1000003;
  all += few(i, 7) + none() + none(i);
}
print(all);
