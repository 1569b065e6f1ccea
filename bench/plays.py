#!/usr/bin/env python3
"""Times plays of activities, and says how much memory they take. It is run by hand, and is no part of the gate.

usage: bench/plays.py [--runs N] [COMMAND..]

COMMAND runs the program; left out, it is crates/worlds/out/worlds. Of N runs (3 if left out) the least time of the processor counts.
1,000 scripts of some 1,000 steps each are run one behind another, as one script; then they are played in a turn each, and by turns of
10 steps, which should take at most four times what the script takes. They print the same each time, and behind it a play has its lines.

In the first kind no script has to do with another, and each is committed at its first try. In the second all count one counter, and
most are run four times. Of a dropped try a play keeps its world with nothing in it, and the texts that it made, and gives the rest
back: how much the second kind takes beyond the peak of the first is told by dropped try.
"""
import re
import sys

from run import AS_STARTED, MOST_STEPS, PROGRAM, best_of_each

SCRIPTS, TURN, ONE_TURN, MOST_TIMES = 1000, 10, 1_000_000, 4
# 1,003 steps, of which each time round takes 9
APART = 'var s# = 0; for (var i# = 0; i# < 110; i#++) s# += i#; print(s#);\n'
COUNTS = 'var t# = n, s# = 0; for (var i# = 0; i# < 110; i#++) s# += i#; n = t# + 1; print(n);\n'


def numbered(script, numbers):
    return [script.replace('#', str(number)) for number in numbers]


def tries_of(name, out, printed):
    """How many tries a play took, whose output has what was printed and behind it a line for each activity."""
    tries = re.findall(rb'^activity \d+ committed tries (\d)$', out[len(printed):], re.M)
    if not out.startswith(printed) or len(tries) != SCRIPTS:
        sys.exit(f'{name}: the play prints {out[:300]!r}..')
    return sum(map(int, tries))


def told(name, answer, beside=''):
    _, _, seconds, peak = answer
    print(f'{name:32} {seconds:8.3f} s {peak / 1e6:8.1f} MB{beside}', flush=True)


def multiple(play, run, tries, aim=None):
    times = play[2] / run[2]
    missed = ' MISSED' if aim and times > aim else ''
    return f'{times:8.2f} x' + (f'  of {aim}{missed}' if aim else '') + f', {tries} tries'


def time_kind(name, runs, program, scripts, aim=None):
    """The bytes at the peak of a play by turns of 10, and how many tries it took."""
    words = [*program, '--steps', str(MOST_STEPS)]
    play = [*words, '--mode', 'play', '--turn']
    given = '---\n'.join(scripts)
    commands = [(words, ''.join(scripts)), ([*play, str(ONE_TURN)], given), ([*play, str(TURN)], given)]
    run, whole, turns = answers = best_of_each(runs, [(*command, AS_STARTED) for command in commands])
    for status, *_ in answers:
        if status:
            sys.exit(f'{name}: the program ended with {status}')
    tries = tries_of(name, turns[1], run[1])
    told(f'{name}, one script', run)
    told(f'{name}, in a turn each', whole, multiple(whole, run, tries_of(name, whole[1], run[1])))
    told(f'{name}, by turns of {TURN}', turns, multiple(turns, run, tries, aim))
    return turns[3], tries


def main(words):
    runs = 3
    if words[:1] == ['--runs']:
        runs, words = int(words[1]), words[2:]
    program = words or [PROGRAM]
    apart, _ = time_kind('apart', runs, program, numbered(APART, range(SCRIPTS)), MOST_TIMES)
    counting, tries = time_kind('one counter', runs, program, ['var n = 0;\n'] + numbered(COUNTS, range(1, SCRIPTS)))
    print(f'a dropped try keeps {(counting - apart) / max(1, tries - SCRIPTS):.0f} bytes')


if __name__ == '__main__':
    main(sys.argv[1:])
