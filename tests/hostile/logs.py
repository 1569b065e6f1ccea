#!/usr/bin/env python3
"""Gives mode `audit` what is nearly a log, and says where an answer is none that it may be. It is run by hand, and is no part of the
gate.

usage: tests/hostile/logs.py [COMMAND..]      COMMAND runs the program; left out, it is crates/worlds/out/worlds

A log that is right, in which each kind of line and content stands, is given whole; cut at each of its places; with each of its bytes
in turn changed into some others, left out, and doubled; and with each of its lines left out, doubled, and put behind the next one.
Then 64 MiB of one byte, for each of some bytes, and one byte more. Each answer must be `yes`, or name a line that there is, and what
is cut within a line must be refused there. Want of memory is no answer here.
"""
import concurrent.futures
import os
import re
import subprocess
import sys

TOP = os.path.dirname(os.path.dirname(os.path.dirname(os.path.abspath(__file__))))
MOST_BYTES = 67_108_864

LOG = b"""text 0 0078
write 0.0 0.0 $0 d1
text 7
text 3 d8000061
sprout 0.0 0 p 0.1
read 0.1 0.0 $0 d1
write 0.1 0.5 $7 $3
write 0.1 0.5 #0 u
write 0.1 0.5 #1 l
write 0.1 0.5 #2 t
write 0.1 0.5 #3 f
write 0.1 0.5 #4 dn
write 0.1 0.5 #5 d-5
write 0.1 0.5 #6 @0.5
write 0.1 0.5 #6 -
list 0.1 0.5 #0 #1 #2 #3 #4 #5 $7
sprout 0.1 4 s 4.0
write 4.0 0.5 #1 d0
commit 4.0 moved
commit 0.1 moved
sprout 0.0 0 p 0.2
read 0.2 0.0 $0 d1
write 0.0 0.0 $0 d2
commit 0.2 differs 0.0 $0
commit 0.0 none
"""


def audit(command, log):
    done = subprocess.run(command + ['--mode', 'audit'], input=log, capture_output=True, timeout=120)
    return done.stdout, done.stderr, done.returncode


def wrong(log, answer):
    """Why an answer may not be one, None where it may."""
    out, err, status = answer
    if answer == (b'yes\n', b'', 0):
        return None if log.endswith(b'\n') or not log else 'yes, to a line without an end'
    said = re.fullmatch(rb"line ([1-9][0-9]*): not (a log line|the machine's answer)\n", err)
    if out or status != 4 or not said:
        return f'{out!r} {err!r} {status}'
    lines = log.count(b'\n') + (not log.endswith(b'\n'))
    return None if int(said[1]) <= lines else f'line {int(said[1])} of {lines}'


def near():
    for place in range(len(LOG) + 1):
        yield LOG[:place]
    for place, byte in enumerate(LOG):
        yield LOG[:place] + LOG[place + 1:]
        yield LOG[:place] + LOG[place:place + 1] + LOG[place:]
        for other in {byte ^ 1, byte ^ 32, 0, 32, 10, 48, 255}:
            yield LOG[:place] + bytes([other]) + LOG[place + 1:]
    lines = LOG.splitlines(keepends=True)
    for place in range(len(lines)):
        yield b''.join(lines[:place] + lines[place + 1:])
        yield b''.join(lines[:place + 1] + lines[place:])
        yield b''.join(lines[:place] + lines[place + 1:place + 2] + lines[place:place + 1] + lines[place + 2:])


def main(words):
    command = words or [os.path.join(TOP, 'crates', 'worlds', 'out', 'worlds')]
    if audit(command, LOG) != (b'yes\n', b'', 0):
        sys.exit('the log itself is refused')
    logs = sorted(set(near()))
    failed = 0
    with concurrent.futures.ThreadPoolExecutor(os.cpu_count()) as pool:
        for log, answer in zip(logs, pool.map(lambda log: audit(command, log), logs)):
            why = wrong(log, answer)
            if why:
                failed += 1
                print(repr(log), why, flush=True)
    for byte in (0, 10, 32, 36, 48, 116, 255):
        for more, wanted in ((0, b'line 1: not a log line\n'), (1, b'too long\n')):
            answer = audit(command, bytes([byte]) * (MOST_BYTES + more))
            if answer != (b'', wanted, 4):
                failed += 1
                print(MOST_BYTES + more, 'times', byte, answer, flush=True)
    print(f'{len(logs) + 14 - failed} passed, {failed} failed')
    return 1 if failed else 0


if __name__ == '__main__':
    sys.exit(main(sys.argv[1:]))
