// Optimistic concurrency: two clerks sell seats side by side, each in a world that was sprouted when the clerk began.
// In a strict world a write also records what was there, so the commit of the slower clerk is refused where both have
// sold one seat. That clerk begins again, in a new world, on what is there now. In plain worlds, where a write records
// nothing, the later sale would silently replace the earlier.

var seats = {a1: "free", a2: "free", a3: "free"};

function show() {
  var line = [];
  for (var seat in seats) line.push(seat + " " + seats[seat]);
  print("  " + line.join(", "));
}

function sell(world, seat, name) {
  in world { seats[seat] = name; }
}

function commit(world, clerk) {
  try { world.commit(); }
  catch (problem) { print(clerk + ": " + problem.message); return false; }
  print(clerk + ": committed");
  return true;
}

function firstFree(world) {
  in world { for (var seat in seats) if (seats[seat] == "free") return seat; }
}

print("plain worlds");
var trial = thisWorld.sprout();
in trial {
  var one = thisWorld.sprout(), two = thisWorld.sprout();
  sell(one, "a1", "Ann");
  sell(two, "a1", "Bob");
  commit(one, "one");
  commit(two, "two");
  show();
}

print("strict worlds");
one = thisWorld.sproutStrict();
two = thisWorld.sproutStrict();
sell(one, "a1", "Ann");
sell(two, "a1", "Bob");
sell(two, "a3", "Cid");
commit(one, "one");
if (!commit(two, "two")) {
  two = thisWorld.sproutStrict();
  sell(two, firstFree(two), "Bob");
  sell(two, "a3", "Cid");
  commit(two, "two");
}
show();
