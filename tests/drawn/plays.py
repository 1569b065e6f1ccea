#!/usr/bin/env python3
"""Plays drawn parts by drawn schedules, and then runs them one behind another; by hand, it is no part of the gate.

usage: tests/drawn/plays.py [--first SEED] [--count N] [COMMAND..]

COMMAND runs the program, with its words; left out, it is crates/worlds/out/worlds. For each seed, of N (500 if left out), two to four
parts (parts.txt) are played by crates/plays/out/plays, whose schedules bring more about than turns of one length do. Each part prints
its number at its end, so the output tells in which order they were committed. Then the program plays them in that order, by turns so
long that each ends within its first: so each runs alone, and all that were committed must print the same. Of the others nothing is
kept, and each must end as it did at some place of that order.

What fails is listed with its seed, and its play is kept in the folder that is named at the end.
"""
import collections
import os
import random
import re
import sys
import tempfile

sys.dont_write_bytecode = True

from run import HERE, PROGRAM, run
from scripts import PARTS, Drawer

PLAYS = os.path.join(os.path.dirname(os.path.dirname(HERE)), 'crates/plays/out/plays')
WHOLE = 1_000_000
LINE = r'activity (\d+) (committed|spent|threw .*) tries ([1-4])'


def part(seed, number):
    """A few statements, most of which are caught; the first part of most plays makes what all share."""
    drawer = Drawer('parts', f'{seed} {number}')
    draws = random.Random(f'part {seed} {number}')
    head, least, most = (PARTS[0], 0, 1) if number == 1 and draws.random() < 0.85 else ('', 2, 7)
    statements = [drawer.draw('st') for _ in range(draws.randint(least, most))]
    caught = ['try { %s } catch (e) { print("T" + e); }' % it if draws.random() < 0.75 else it for it in statements]
    return head + '\n'.join([*caught, f'print("end {number}");\n'])


def play(seed):
    """The parts, the turns of the schedule, the steps of a turn behind it, and the budget."""
    draws = random.Random(f'plays {seed}')
    parts = [part(seed, number) for number in range(1, draws.choice([2, 2, 3, 3, 4]) + 1)]
    steps = lambda: draws.choice([1, 1, 2, 3, 5, 8, 13, 20, 50, draws.randrange(1, 51)])
    turns = [(1, WHOLE)] if draws.random() < 0.8 else []
    turns += [(draws.randrange(1, len(parts) + 2), steps()) for _ in range(draws.choice([0, 0, 5, 20, 60]))]
    return parts, turns, steps(), draws.choice([150, 300, 600, 2000, 5000, 20000])


def ends_of(out, numbers):
    """What was printed, and how each of these activities ended, which stand in the order of their parts; None where that isn't told."""
    lines = out.split('\n')
    told = [re.fullmatch(LINE, line) for line in lines[-1 - len(numbers):-1]]
    if not all(told) or [int(line[1]) for line in told] != list(range(1, len(numbers) + 1)):
        return None
    printed = ''.join(line + '\n' for line in lines[:-1 - len(numbers)])
    return printed, {number: (line[2], int(line[3])) for number, line in zip(numbers, told)}


class Replay:
    """The parts of a play, run one behind another in orders of their numbers."""

    def __init__(self, program, parts, budget):
        self.words = [*program, '--mode', 'play', '--turn', str(WHOLE), '--steps', str(budget)]
        self.parts = parts

    def ends(self, order):
        """All parts are there, since the names that they declare are known in each."""
        order = [*order, *(number for number in range(1, len(self.parts) + 1) if number not in order)]
        status, out = run(self.words, '---\n'.join(self.parts[number - 1] for number in order))
        return ends_of(out, order) if status == 0 else None

    def fault(self, printed, ends):
        """Why the play can't have been one behind another; None where it can."""
        committed = [int(number) for number in re.findall(r'^end (\d+)$', printed, re.M)]
        if sorted(committed) != sorted(number for number, (how, _) in ends.items() if how == 'committed'):
            return 'other ends'
        alone = self.ends(committed)
        if not alone or not alone[0].startswith(printed) or any(alone[1][number] != ('committed', 1) for number in committed):
            return 'printed otherwise'
        for number, (how, _) in ends.items():
            if how != 'committed' and not any(self.ends_so(committed[:place], number, how) for place in range(len(committed) + 1)):
                return f'activity {number} never ends so'
        return None

    def ends_so(self, before, number, how):
        ends = self.ends([*before, number])
        return ends and ends[1][number] == (how, 1)


def main(words):
    first, count = 0, 500
    while words and words[0] in ('--first', '--count'):
        word, number = words.pop(0), int(words.pop(0))
        first, count = (number, count) if word == '--first' else (first, number)
    program, folder, counts, failed = words or [PROGRAM], tempfile.mkdtemp(prefix='worlds-plays-'), collections.Counter(), 0
    for seed in range(first, first + count):
        parts, turns, turn, budget = play(seed)
        given = ' '.join([*(f'{activity}:{steps}' for activity, steps in turns), f'turn {turn} steps {budget}\n']) + '---\n'.join(parts)
        status, out = run([PLAYS], given)
        found = ends_of(out, range(1, len(parts) + 1)) if status == 0 else None
        fault = Replay(program, parts, budget).fault(*found) if found else f'status {status}'
        counts.update(f'{how.split()[0]} at try {tries}' for how, tries in (found[1].values() if found else ()))
        if fault:
            failed += 1
            with open(os.path.join(folder, f'{seed}.play'), 'w', encoding='utf-8') as it:
                it.write(given)
            print(f'seed {seed}: {fault}', flush=True)
    print(', '.join(f'{times} {kind}' for kind, times in sorted(counts.items())))
    print(f'{count - failed} plays hold, {failed} failed' + (f'; they are in {folder}' if failed else ''))
    if not failed:
        os.rmdir(folder)
    return 1 if failed else 0


if __name__ == '__main__':
    sys.exit(main(sys.argv[1:]))
