// Tests that leave no trace: each test runs in a world of its own, which is then dropped. So it may change what it likes,
// the built-in objects too, and the next test finds everything as it was.
// A failure is thrown as a text: the message of an error that a test makes with new would stay in that test's world.

var account = {owner: "Ada", balance: 100, log: []};

function withdraw(sum) {
  if (sum > account.balance) throw "not enough";
  account.balance -= sum;
  account.log.push("withdrew " + sum);
}

function equal(found, expected) {
  if (found !== expected) throw "found " + found + " in place of " + expected;
}

var tests = [
  {name: "a withdrawal lowers the balance", run: function () { withdraw(30); equal(account.balance, 70); }},
  {name: "it is logged", run: function () { withdraw(30); withdraw(20); equal(account.log.join(", "), "withdrew 30, withdrew 20"); }},
  {name: "too much is refused", run: function () {
    try { withdraw(101); } catch (problem) { equal(problem, "not enough"); return; }
    throw "it was paid out";
  }},
  {name: "a test that is wrong", run: function () { withdraw(30); equal(account.balance, 100); }},
  {name: "a test that breaks much", run: function () { Array.prototype.push = null; account = null; withdraw(1); }},
  {name: "the next one finds all in place", run: function () { withdraw(100); equal(account.balance, 0); equal(account.log.length, 1); }}
];

function failure(test) {
  try { in thisWorld.sprout() { test.run(); } }
  catch (problem) { return typeof problem == "string" ? problem : problem.name + ": " + problem.message; }
  return "";
}

var passed = 0;
for (var k = 0; k < tests.length; k++) {
  var problem = failure(tests[k]);
  if (problem == "") passed++;
  print((problem == "" ? "ok      " : "FAILED  ") + tests[k].name + (problem == "" ? "" : ": " + problem));
}
print(passed + " of " + tests.length + " passed");
print(account.owner + " has " + account.balance + ", and " + account.log.length + " lines in the log");
