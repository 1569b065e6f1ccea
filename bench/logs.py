#!/usr/bin/env python3
"""Times logs and audits, and says how much memory they take. It is run by hand, and is no part of the gate.

usage: bench/logs.py [--runs N] [COMMAND..]

COMMAND runs the program; left out, it is crates/worlds/out/worlds. Of N runs (3 if left out) the least time of the processor counts.
A script is run, logged, and its log audited: the generated one for three numbers of worlds, and a chain of worlds, each a child of
the one before it, in whose last all is read. Last the log of the generated script is audited with so many reads behind it that it
has 64 MiB.
"""
import re
import sys

from run import AS_STARTED, MOST_STEPS, NUMBERS, PROGRAM, best_of_each

MOST_BYTES = 67_108_864

GENERATED = """var n = %d, o = {}, ws = [], moved = 0, refused = 0, sum = 0, i;
function change(w, k) { in w { o[k] = o[k] + 7; if (k %% 5 == 4) o[k - 1]; } }
for (i = 0; i < n; i++) o[i] = i;
for (i = 0; i < n; i++) ws[i] = thisWorld.sprout();
for (i = 0; i < n; i++) change(ws[i], i);
for (i = 0; i < n; i++) { try { ws[i].commit(); moved++; } catch (e) { refused++; } }
for (i = 0; i < n; i++) sum += o[i];
print("moved " + moved + " refused " + refused + " sum " + sum);
"""

CHAIN = """var w = thisWorld, o = {}, i, sum = 0;
for (i = 0; i < %d; i++) { o[i] = i; w = w.sprout(); }
in w { for (i in o) sum += o[i]; }
print(sum);
"""


def told(name, seconds, peak, beside=''):
    print(f'{name:24} {seconds:8.3f} s {peak / 1e6:8.1f} MB{beside}', flush=True)


def ended(name, status, wanted=0):
    if status != wanted:
        sys.exit(f'{name}: the program ended with {status}')


def audit(name, runs, program, log, run_seconds):
    [(status, said, seconds, peak)] = best_of_each(runs, [([*program, '--mode', 'audit'], log, AS_STARTED)])
    ended(name, status)
    if said != b'yes\n':
        sys.exit(f'{name}: the audit says {said!r}')
    told(f'{name} audited', seconds, peak, f' {seconds / run_seconds:6.2f} x the run')


def time_log(name, runs, program, script):
    words = [*program, '--steps', str(MOST_STEPS)]
    [(status, _, run_seconds, peak)] = best_of_each(runs, [(words, script, AS_STARTED)])
    ended(name, status)
    told(f'{name} run', run_seconds, peak)
    [(status, log, seconds, peak)] = best_of_each(runs, [([*words, '--mode', 'log'], script, AS_STARTED)])
    ended(name, status)
    told(f'{name} logged', seconds, peak, f' {seconds / run_seconds:6.2f} x the run, {len(log) / 1e6:.1f} MB of log')
    if len(log) <= MOST_BYTES:
        audit(name, runs, program, log.decode(), run_seconds)
    return log.decode(), run_seconds


def repeated(log):
    """Reads of the log's first world, put behind it again and again: a log of as many bytes as an audit takes."""
    last = {}
    for line in re.findall(r'(?:read|write) 0\.0 .*\n', log):
        _, _, thing, name, _ = line.split(' ')
        last[thing, name] = line
    # a commit may have moved into it what other worlds wrote
    moved = {tuple(line.split(' ')[2:4]) for line in re.findall(r'write 0\.[1-9][0-9]* .*\n', log)}
    reads = ['read ' + line.split(' ', 1)[1] for slot, line in last.items() if slot not in moved]
    size = sum(map(len, reads))
    return log + ''.join(reads) * ((MOST_BYTES - len(log)) // size)


def main(words):
    runs = 3
    if words[:1] == ['--runs']:
        runs, words = int(words[1]), words[2:]
    program = words or [PROGRAM]
    for number in NUMBERS:
        log, seconds = time_log(f'gen {number}', runs, program, GENERATED % number)
        if number == 20000:
            long = repeated(log), seconds
    for depth in (500, 1000, 2000):
        time_log(f'chain {depth}', runs, program, CHAIN % depth)
    audit(f'{len(long[0]) / 2**20:.1f} MiB', runs, program, *long)


if __name__ == '__main__':
    main(sys.argv[1:])
