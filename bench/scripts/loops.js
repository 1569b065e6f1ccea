// kind: loops
// sizes: 100 6000
// steps: 18456 1726762
var size = 6000;
var sum = 0;
for (var i = 0; i < size * 10; i++) sum += i % 7;
print(sum);
function primes(below) {
  var found = 0, n, d, prime;
  for (n = 2; n < below; n++) {
    prime = true;
    for (d = 2; d * d <= n; d++) {
      if (n % d == 0) { prime = false; break; }
    }
    if (prime) found++;
  }
  return found;
}
print(primes(size));
