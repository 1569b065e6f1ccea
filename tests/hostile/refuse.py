#!/usr/bin/env python3
"""Refuses memory to the program, one allocation at a time, and looks how it ends.

usage: tests/hostile/refuse.py [--gate] [-- COMMAND..]     --gate: three of the runs, and no address spaces, for .ci/run

Each run is made once in peace, where it must give what is due, and its allocations are counted (refuse.c, which `cc` compiles, is
preloaded). Then it is made again for each number of an allocation, first with that one refused, then with all from it on: every
number up to 4,000, and from there on every 97th. At last it is made in address spaces from 8 MB to 256 MB, each by an eighth larger.
There it must end with what is due, or with a front of the due output, status 3 and `out of memory`; or with nothing and status 9,
where its words can't be had, which it takes first.
"""
import collections
import concurrent.futures
import json
import os
import resource
import subprocess
import sys
import tempfile

TOP = os.path.dirname(os.path.dirname(os.path.dirname(os.path.abspath(__file__))))
EACH, STRIDE, SECONDS = 4000, 97, 60
# more allocations than the words take
WORDS = 20

# The first world reads what a child has written but not yet committed, and a sibling reads what it writes itself.
SIBLINGS = ('var a = thisWorld.sprout(), b = thisWorld.sprout(); in a { s = true; } in b { print(typeof t); t = true; } '
            'print(typeof s); a.commit(); print(s); b.commit(); print(t);')
# A call with one variable and five formals, whose rows are gathered first, in the first world and in a child.
CALLED = ('function f(a, b, c, d, e) { var x = a + e; return x; } var w = thisWorld.sprout(), x = f(1, 2, 3, 4, 5); '
          'in w { x = f(2, 3, 4, 5, 6); print(x); } print(x); w.commit(); print(x);')
# The second script's first try is dropped, since the fourth changes what it has read.
PLAY = "var x = 1;\n---\nvar w = thisWorld.sprout(); in w { x = x + 1; print(x); } w.commit(); print(x);\n---\nx = 7; throw 'no';\n---\nx = 5;\n"
PLAYED = ('6\n6\nactivity 1 committed tries 1\nactivity 2 committed tries 2\n'
          'activity 3 threw no tries 1\nactivity 4 committed tries 1\n')
GATE = ('called', 'checked', 'refused-place')


def runs():
    """The name, words, script, and the due output, error and status of each run."""
    with open(os.path.join(TOP, 'tests', 'rows.jsonl'), encoding='utf-8') as table:
        for row in map(json.loads, table):
            if row['id'] in ('case-2', 'case-11a', 'case-11b', 'case-11c', 'case-18', 'case-26'):
                yield row['id'], row['words'], row['stdin'], row['out'], row['err'], row['status']
    yield 'called', [], CALLED, '8\n6\n8\n', '', 0
    yield 'siblings', [], SIBLINGS, 'undefined\nundefined\ntrue\ntrue\n', '', 0
    # Each world adds 7 to a slot of its own; every fifth has read its neighbour's, which has been committed: 0 + .. + 49 + 40 * 7.
    yield 'generated', ['--mode', 'gen', '--number', '50'], '', 'moved 40 refused 10 sum 1505\n', '', 0
    yield 'checked', ['--mode', 'check'], 'while (true) {}', 'ok\n', '', 0
    yield 'thrown', [], 'print(1); throw new TypeError("bad");', '1\n', 'uncaught TypeError: bad\n', 1
    yield 'refused-place', [], 'x = 1;\n#', '', 'line 2: not a token\n', 4
    yield 'refused-tokens', [], 'x = {;', '', 'line 1: syntax error\n', 4
    yield 'refused-words', ['--mode', 'nothing'], '', '', "usage: error: invalid value 'nothing' for '--mode <mode>'\n", 5
    # two pieces of output go out, and the rest waits
    yield 'printing', [], 'for (var i = 0; i < 1100; i++) print("abcdefg");', 'abcdefg\n' * 1100, '', 0
    yield 'spent', ['--steps', '1000'], 'print(1); while (true) {}', '1\n', 'step budget spent\n', 2
    yield 'played', ['--mode', 'play', '--turn', '20'], PLAY, PLAYED, '', 0
    yield 'refused-part', ['--mode', 'play'], 'x = 1;\n---\n#', '', 'line 3: not a token\n', 4
    yield 'spent-by-the-library', ['--mode', 'play', '--steps', '50'], PLAY, '', 'step budget spent\n', 2


def ended(command, words, script, memory=None, **refused):
    """The output, error and status of a run; None in place of the status where it has no end."""
    limit = memory and (lambda: resource.setrlimit(resource.RLIMIT_AS, (memory, memory)))
    try:
        done = subprocess.run(command + words, input=script.encode(), capture_output=True, timeout=SECONDS,
                              env=os.environ | refused, preexec_fn=limit)
    except subprocess.TimeoutExpired:
        return b'', b'', None
    return done.stdout, done.stderr, done.returncode


def is_right(due, got, how):
    out, err, status = got
    if got == due or got == (b'', b'', 9) and int(how.get('REFUSE_AT', 0)) <= WORDS:
        return True
    return status == 3 and err == b'out of memory\n' and due[0].startswith(out)


def limits():
    size = 8 << 20
    while size < 256 << 20:
        yield {'memory': size & -4096}
        size += size // 8


def asked_for(command, library, words, script, due):
    """How many allocations the run asks for in peace, None where it doesn't end as is due."""
    with tempfile.NamedTemporaryFile('r', encoding='ascii') as told:
        if ended(command, words, script, LD_PRELOAD=library, REFUSE_TOLD=told.name) != due:
            return None
        return int(told.read())


def refusals(asked, library):
    numbers = [n for n in range(1, asked + 2) if n <= EACH or n % STRIDE == 0]
    return [{'LD_PRELOAD': library, 'REFUSE_AT': str(n)} | more for more in ({}, {'REFUSE_ON': '1'}) for n in numbers]


def tried(pool, command, run, hows):
    """The endings of the run, counted, with a line for each that is wrong; then how many are."""
    name, words, script, *due = run
    due, counts, wrong = (due[0].encode(), due[1].encode(), due[2]), collections.Counter(), 0
    for how, got in zip(hows, pool.map(lambda how: ended(command, words, script, **how), hows)):
        counts['due' if got == due else f'status {got[2]}'] += 1
        if not is_right(due, got, how):
            wrong += 1
            print(name, {key: how[key] for key in how if key != 'LD_PRELOAD'}, 'ended with', got, flush=True)
    return counts, wrong


def main(words):
    command = words[words.index('--') + 1:] if '--' in words else [os.path.join(TOP, 'crates', 'worlds', 'out', 'worlds')]
    words = words[:words.index('--')] if '--' in words else words
    in_gate, made, wrong = '--gate' in words, 0, 0
    with tempfile.TemporaryDirectory() as folder, concurrent.futures.ThreadPoolExecutor(4 if in_gate else 1) as pool:
        library = os.path.join(folder, 'refuse.so')
        subprocess.run(['cc', '-O1', '-shared', '-fPIC', '-o', library, os.path.join(TOP, 'tests', 'hostile', 'refuse.c')], check=True)
        for run in runs():
            if in_gate and run[0] not in GATE:
                continue
            asked = asked_for(command, library, run[1], run[2], (run[3].encode(), run[4].encode(), run[5]))
            if asked is None:
                print(run[0], 'does not end as is due', flush=True)
                wrong += 1
                continue
            counts, faults = tried(pool, command, run, refusals(asked, library) + ([] if in_gate else list(limits())))
            made, wrong = made + counts.total(), wrong + faults
            if not in_gate:
                print(f'{run[0]}: {asked} allocations;', ', '.join(f'{kind} {count}' for kind, count in counts.items()), flush=True)
    print(f'{made} runs with memory refused, {wrong} wrong')
    return 1 if wrong else 0


if __name__ == '__main__':
    sys.exit(main(sys.argv[1:]))
