#!/usr/bin/env python3
"""Runs drawn scripts (scripts.py), by hand; it is no part of the gate.

usage: tests/drawn/run.py [--first SEED] [--count N] [COMMAND..]

COMMAND runs the program, with its words; left out, it is crates/worlds/out/worlds. For each seed, of N (500 if left out), and each
grammar:

  peers    a plain script, with semicolons left out at random, prints and ends as in node, or else as in mujs, each where it is on PATH
  syntax   a few statements with tokens put in, left out or swapped are refused only where one of these refuses them, and read only
           where node reads them
  lines    where such a text has a token that is unexpected here and in node, or ends too early in both, node tells the same line or,
           since it reads more forms, a later one; those with the same are counted
  commits  with statements at random run in worlds that are committed right after it prints what the plain script prints
  drops    run in a world that is dropped, and then once more, it prints twice what it prints
  logs     the log of each of these runs, of 100,000 steps at most, is one that an audit says yes to

These compare the definitions, which the program is proved to follow, with other readings of the standard and with what is promised of
worlds. What fails is listed with its seed, and its script is kept in the folder that is named at the end. Passed over are scripts that
differ first where a number is out of range, which throws here and is rounded there, and those cut by steps, seconds or a full stack.
"""
import json
import os
import random
import re
import shutil
import subprocess
import sys
import tempfile

sys.dont_write_bytecode = True

from scripts import GRAMMARS, mutated, respaced, script

HERE = os.path.dirname(os.path.abspath(__file__))
PROGRAM = os.path.join(os.path.dirname(os.path.dirname(HERE)), 'crates/worlds/out/worlds')
STEPS = ['--steps', '5000000']
LOGGED_STEPS = ['--steps', '100000']
STEPS_SPENT, REFUSED = 2, 4
AT_ONCE = 200
# Each text of a list in a context of its own: what it prints, and 0, 1 after a throw, 4 where it is no script, None where it is cut.
NODE = '''
const vm = require("vm"), texts = JSON.parse(require("fs").readFileSync(0)), runs = process.argv[1] === "run";
console.log(JSON.stringify(texts.map(text => {
  let out = "", script;
  try { script = new vm.Script(text); } catch (e) { return [4, ""]; }
  if (!runs) return [0, ""];
  const context = vm.createContext({});
  context.print = value => { out += String(value) + "\\n"; };
  try { script.runInContext(context, {timeout: 5000}); return [0, out]; }
  catch (e) { return [e && e.code === "ERR_SCRIPT_EXECUTION_TIMEOUT" || /call stack/.test(e) ? null : 1, out]; }
})));
'''

# The line on which node finds each text at fault for an unexpected token or end, None where it doesn't.
LINES = '''
const vm = require("vm"), texts = JSON.parse(require("fs").readFileSync(0));
console.log(JSON.stringify(texts.map(text => {
  try { new vm.Script(text); } catch (e) { if (/^Unexpected /.test(e.message)) return Number(/:(\\d+)/.exec(e.stack)[1]); }
  return null;
})));
'''


def run(words, text=''):
    """The status and what was printed; no status where it took too long."""
    try:
        ended = subprocess.run(words, input=text.encode(), stdout=subprocess.PIPE, stderr=subprocess.DEVNULL, timeout=60)
    except subprocess.TimeoutExpired:
        return None, ''
    return ended.returncode, ended.stdout.decode('utf-8', 'replace')


def in_node(texts, mode):
    if not shutil.which('node'):
        return [None] * len(texts)
    ended = subprocess.run(['node', '--stack-size=4000', '-e', NODE, mode], input=json.dumps(texts).encode(), stdout=subprocess.PIPE, check=True)
    # a lone surrogate is printed as U+FFFD
    return [(status, out.encode('utf-16', 'surrogatepass').decode('utf-16', 'replace')) for status, out in json.loads(ended.stdout)]


def lines_in_node(texts):
    ended = subprocess.run(['node', '--stack-size=4000', '-e', LINES], input=json.dumps(texts).encode(), stdout=subprocess.PIPE, check=True)
    return json.loads(ended.stdout)


def in_mujs(text, mode):
    if not shutil.which('mujs'):
        return None
    with tempfile.NamedTemporaryFile('w', suffix='.js') as it:
        it.write(text if mode == 'run' else f'new Function({json.dumps(text)});')
        it.flush()
        status, out = run(['mujs', it.name])
    return (0 if status == 0 else 1 if mode == 'run' else REFUSED), out


def is_rounded(ours, theirs):
    """Whether they differ first where a number out of range was thrown here."""
    differing = (mine for mine, other in zip(ours.split('\n'), theirs.split('\n')) if mine != other)
    return next(differing, '') == 'number out of range'


class Checks:
    def __init__(self, program):
        self.program = program
        self.folder = tempfile.mkdtemp(prefix='worlds-drawn-')
        self.passed = dict.fromkeys(['peers', 'syntax', 'lines', 'commits', 'drops', 'logs'], 0)
        self.failed = self.same_lines = 0

    def ours(self, text, *words):
        return run([*self.program, *STEPS, *words], text)

    def check(self, kind, name, text, holds):
        if holds:
            self.passed[kind] += 1
            return
        self.failed += 1
        path = os.path.join(self.folder, f'{kind}-{name}.js')
        with open(path, 'w', encoding='utf-8') as it:
            it.write(text)
        print(f'{kind} {name}', flush=True)

    def peers(self, kind, mode, grammar, seeds, draw, *words):
        texts = [draw(grammar, seed) for seed in seeds]
        for seed, text, node in zip(seeds, texts, in_node(texts, mode)):
            ours = self.ours(text, *words)
            if ours[0] in (None, STEPS_SPENT) or node and node[0] is None:
                continue
            if mode == 'read':
                ours = (ours[0], '')
            # what later editions have added node reads, and mujs doesn't; as the body of a function mujs reads more than a script
            decides = node and mode == 'read' and ours[0] == 0
            peers = [it for it in (node, ours != node and not decides and in_mujs(text, mode)) if it]
            if ours in peers or not (mode == 'run' and any(is_rounded(ours[1], theirs) for _, theirs in peers)):
                self.check(kind, f'{grammar}-{seed}', text, ours in peers)

    def line(self, text):
        """The line on which a text has an unexpected token, or ends too early; None where it doesn't."""
        ended = subprocess.run([*self.program, '--mode', 'check'], input=text.encode(), capture_output=True, timeout=60)
        told = re.fullmatch(rb'line (\d+): syntax error\n', ended.stderr)
        return told and int(told[1])

    def lines(self, grammar, seeds):
        # node tells the line of the end itself, here it is the last token's
        texts = [mutated(grammar, seed).rstrip() for seed in seeds]
        for seed, text, theirs in zip(seeds, texts, lines_in_node(texts)):
            ours = self.line(text)
            if ours and theirs:
                self.check('lines', f'{grammar}-{seed}', text, ours <= theirs)
                self.same_lines += ours == theirs

    def log(self, name, text):
        log = subprocess.run([*self.program, *LOGGED_STEPS, '--mode', 'log'], input=text.encode(), capture_output=True, timeout=60).stdout
        audit = subprocess.run([*self.program, '--mode', 'audit'], input=log, capture_output=True, timeout=60)
        self.check('logs', name, text, log and (audit.returncode, audit.stdout, audit.stderr) == (0, b'yes\n', b''))

    def worlds(self, grammar, seed):
        plain = self.ours(script(grammar, seed))
        self.log(f'{grammar}-{seed}', script(grammar, seed))
        if plain[0] in (None, STEPS_SPENT):
            return
        for share in (0.05, 0.3):
            text = script(grammar, seed, share)
            ours = self.ours(text)
            self.log(f'{grammar}-{seed}-{share}', text)
            if ours[0] not in (None, STEPS_SPENT):
                self.check('commits', f'{grammar}-{seed}-{share}', text, ours == plain)
        text = script(grammar, seed, dropped_first=True)
        ours = self.ours(text)
        self.log(f'{grammar}-{seed}-dropped', text)
        if ours[0] not in (None, STEPS_SPENT):
            self.check('drops', f'{grammar}-{seed}', text, ours == (plain[0], plain[1] * 2))


def spaced_script(grammar, seed):
    return respaced(script(grammar, seed), random.Random(f'spaces {seed}'))


def main(words):
    first, count = 0, 500
    while words and words[0] in ('--first', '--count'):
        word, number = words.pop(0), int(words.pop(0))
        first, count = (number, count) if word == '--first' else (first, number)
    checks = Checks(words or [PROGRAM])
    if not any(map(shutil.which, ('node', 'mujs'))):
        print('neither node nor mujs is on PATH: nothing is compared with them')
    for grammar in GRAMMARS:
        for start in range(first, first + count, AT_ONCE):
            seeds = range(start, min(start + AT_ONCE, first + count))
            if any(map(shutil.which, ('node', 'mujs'))):
                checks.peers('peers', 'run', grammar, seeds, spaced_script)
                checks.peers('syntax', 'read', grammar, seeds, mutated, '--mode', 'check')
            if shutil.which('node'):
                checks.lines(grammar, seeds)
            for seed in seeds:
                checks.worlds(grammar, seed)
    print(', '.join(f'{number} {kind}' for kind, number in checks.passed.items()) + f' hold, {checks.failed} failed; {checks.same_lines} lines are the same')
    if checks.failed:
        sys.exit(f'the scripts are in {checks.folder}')
    os.rmdir(checks.folder)


if __name__ == '__main__':
    main(sys.argv[1:])
