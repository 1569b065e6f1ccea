// Makes the row of tests/fronts.jsonl: what is due for each front of the script of the row `case-19`, from node and not from the program.
//
// usage: node tests/hostile/fronts.js > tests/fronts.jsonl
//
// Node has no worlds. There `in w {` is `with (w) {`, and a world is an object with a `doc` of its own, a copy of its parent's; that is
// enough for this script, in which only the elements of `doc` change in worlds. A front that ends within a string is refused by a rule
// of ours: no token begins at that string. What node refuses otherwise is refused here, since the script has no other form of this
// language alone. A front is at fault at its end, and node tells the line of that: the last token's, once no line end stands behind it.
const fs = require('fs'), path = require('path'), vm = require('vm');
const rows = fs.readFileSync(path.join(__dirname, '..', 'rows.jsonl'), 'utf8').trim().split('\n').map(line => JSON.parse(line));
const script = rows.find(row => row.id === 'case-19').stdin;

function due(front) {
  const quotes = [...front.matchAll(/"/g)];
  if (quotes.length % 2) {
    const line = front.slice(0, quotes.pop().index).split('\n').length;
    return ['', `line ${line}: not a token\n`, 4];
  }
  let plain;
  try { plain = new vm.Script(front.trimEnd().replace(/\bin w \{/g, 'with (w) {')); } catch (e) {
    return ['', `line ${/:(\d+)/.exec(e.stack)[1]}: syntax error\n`, 4];
  }
  const world = doc => ({doc, sprout: () => world(doc.slice())});
  let out = '';
  try {
    plain.runInContext(vm.createContext({thisWorld: world([]), print: text => { out += text + '\n'; }}));
  } catch (e) { return [out, `uncaught ${e.name}: ${e.message}\n`, 1]; }
  return [out, '', 0];
}

const fronts = [];
for (let length = 0; length <= script.length; length++) {
  const now = due(script.slice(0, length)), before = fronts[fronts.length - 1];
  if (before && JSON.stringify(before.slice(1)) === JSON.stringify(now)) before[0] = length;
  else fronts.push([length, ...now]);
}
console.log(JSON.stringify({id: 'front', words: [], stdin: script, fronts}));
