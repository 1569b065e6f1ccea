// What did my speculative edit touch? An edit is tried in a world of its own. The log of the run has a line for each
// action on worlds, and those in the world that is sprouted first name it 0.1 behind their word:
//
//     ./worlds --mode log < examples/touched.js | grep '^[a-z]* 0\.1 '

var prices = {tea: 3, cake: 5}, total = 0;

function order(name, count) {
  total = total + prices[name] * count;
}

var trial = thisWorld.sprout();
in trial { order("cake", 2); print("in the trial: " + total); }
print("outside: " + total);
