// Undo: each edit of a document is made in a child of the world before it. To undo an edit is to go back to the world
// before it: nothing has to be put back, since the edit has changed nothing there. To keep all edits, each world is
// committed into the one before it, the latest first.

var lines = ["to be,"], history = [thisWorld];

function now() { return history[history.length - 1]; }

function edit(change) {
  var world = now().sprout();
  in world { change(); }
  history.push(world);
}

function undo() { if (history.length > 1) history.pop(); }

function show(title) {
  in now() { print(title + ": " + lines.join(" ")); }
}

show("at first");
edit(function () { lines.push("or not"); });
edit(function () { lines.push("to be"); });
show("two lines more");
edit(function () { lines[0] = "to do,"; });
show("another first line");
undo();
show("undone");
undo();
edit(function () { lines.push("to do"); lines.reverse(); });
show("another way on");

print("in the first world: " + lines.join(" "));
while (history.length > 1) history.pop().commit();
print("after the commits: " + lines.join(" "));
