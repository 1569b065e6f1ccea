#!/usr/bin/env python3
"""Runs scripts under every budget of steps from 1 to their end, and one more, on the built program.

usage: tests/budgets/run.py [--gate] [--only ID] [-- COMMAND..]

  --gate      mode `tree` alone, which prints what `run` prints and then the marks; a run takes some 2 ms
  --only ID   the scripts whose id begins so
Without a COMMAND the program is crates/worlds/out/worlds.

scripts.jsonl has a script a line: `id`, `before` and `body`. It is run in the first world, `before` and then `body`; and, but for the
scripts of ../steps.jsonl, which follow at the end, with `body` twice in one child of it, plain or strict, which is committed then
(text_of). For each of the three the line tells `steps`, those that the script takes to its end; its `status`, `out` and `err`; how
`out` grows: pairs, the least budget and the length that it then has; and the `marks` of child worlds: for each change the least
budget, the world, its parent, and how many slots it has read and written and how many objects it has listed. So all is told of each
budget: one that is less than the steps ends with status 2 and these.
A step that is omitted, or taken too early or too late, shows here where no row of a whole run could show it.

What is due was told by an interpreter of docs/LANGUAGE.md and docs/WORLDS.md that was written apart from this program and keeps full
copies, never by the program.

Each script that differs has a line here, with the least budget where it does. The last line counts, and the status is 1 where one
differs. Last, without --gate and --only, output must come while a run goes on: a piece of 4,096 bytes, and no more of it.
"""
import concurrent.futures
import json
import os
import select
import signal
import subprocess
import sys
import time

HERE = os.path.dirname(os.path.abspath(__file__))
PROGRAM = os.path.join(os.path.dirname(os.path.dirname(HERE)), 'crates', 'worlds', 'out', 'worlds')
WHERE = {'first': '', 'child': 'sprout', 'strict': 'sproutStrict'}
SPENT = (b'step budget spent\n', 2)
SECONDS, MOST_STEPS, PIECE = 60, 10**12, 4096
# A text of 32 units and a line end each time: 125 of them are 4,125 bytes. Then it goes on and prints nothing.
PRINTS = 'var n = 0; while (n++ < 125) print("0123456789abcdef0123456789abcdef"); while (true) n++;'


def text_of(row, where):
    if where == 'first':
        return f"{row['before']}\n{row['body']}"
    return (f"{row['before']}\nvar world_ = thisWorld.{WHERE[where]}(), turn_ = 0;\n"
            f"while (turn_++ < 2) in world_ {{ {row['body']} }}\nworld_.commit();")


def lines_of(worlds):
    """What mode `tree` writes of worlds: for each its parent, None for the first, and the numbers of its marks."""
    for world, (parent, *marks) in sorted(worlds.items()):
        above = '' if parent is None else f'parent {parent} '
        yield 'world %d %sreads %d writes %d closed %d\n' % (world, above, *marks)


def due_of_each(due):
    """For each budget from 1 to one more than the steps: the output, the worlds' lines, and the error with the status."""
    grows, marks = list(due['grows']), list(due['marks'])
    out, length, worlds = due['out'].encode(), 0, {0: (None, 0, 0, 0)}
    tree = ''.join(lines_of(worlds)).encode()
    for budget in range(1, due['steps'] + 2):
        while grows and grows[0][0] <= budget:
            length = grows.pop(0)[1]
        if marks and marks[0][0] <= budget:
            while marks and marks[0][0] <= budget:
                _, world, *worlds[world] = marks.pop(0)
            tree = ''.join(lines_of(worlds)).encode()
        ending = (due['err'].encode(), due['status']) if budget >= due['steps'] else SPENT
        yield budget, out[:length], tree, ending


def raise_overdue(*_):
    raise TimeoutError(f'a run goes on after {SECONDS} seconds')


def ended(process):
    """The status with which a process ends; one that takes too long is ended, and the time-out raised."""
    signal.alarm(SECONDS)
    try:
        return os.waitstatus_to_exitcode(os.waitpid(process, 0)[1])
    except TimeoutError:
        os.kill(process, signal.SIGKILL)
        os.waitpid(process, 0)
        raise
    finally:
        signal.alarm(0)


class Runs:
    """Runs of the program on one script; they write into files in memory, which takes less time than pipes."""

    def __init__(self, command, text):
        self.command = command
        self.streams = [os.memfd_create(name) for name in ('script', 'out', 'err')]
        os.write(self.streams[0], text.encode())
        self.actions = [(os.POSIX_SPAWN_DUP2, stream, number) for number, stream in enumerate(self.streams)]

    def given(self, mode, budget):
        """The output, and the error with the status."""
        for stream in self.streams:
            os.lseek(stream, 0, os.SEEK_SET)
        for stream in self.streams[1:]:
            os.truncate(stream, 0)
        words = [*self.command, '--mode', mode, '--steps', str(budget)]
        status = ended(os.posix_spawnp(words[0], words, os.environ, file_actions=self.actions))
        out, err = (os.pread(stream, os.fstat(stream).st_size, 0) for stream in self.streams[1:])
        return out, (err, status)

    def close(self):
        for stream in self.streams:
            os.close(stream)


def first_difference(runs, due, modes):
    """How many runs there were, and what the first that differs gave in place of what is due, None where all agree."""
    made = 0
    for budget, out, tree, ending in due_of_each(due):
        for mode in modes:
            wanted = (out + tree if mode == 'tree' else out), ending
            made += 1
            given = runs.given(mode, budget)
            if given != wanted:
                return made, f'--mode {mode} --steps {budget} wanted {wanted} got {given}'
    return made, None


def difference(command, row, where, modes):
    runs = Runs(command, text_of(row, where))
    try:
        return first_difference(runs, row[where], modes)
    finally:
        runs.close()


def piece_comes(command):
    """Whether a piece comes while the run goes on, and no more of the output; the run is ended then."""
    with subprocess.Popen([*command, '--steps', str(MOST_STEPS)], stdin=subprocess.PIPE, stdout=subprocess.PIPE) as run:
        run.stdin.write(PRINTS.encode())
        run.stdin.close()
        came, until = b'', time.monotonic() + SECONDS
        while len(came) < PIECE and select.select([run.stdout], [], [], max(0, until - time.monotonic()))[0]:
            came += os.read(run.stdout.fileno(), 1 << 16)
        more = select.select([run.stdout], [], [], 0.5)[0]
        goes_on = run.poll() is None
        run.kill()
    return len(came) == PIECE and not more and goes_on


def main(words):
    command, in_gate, only = [PROGRAM], '--gate' in words, ''
    if '--' in words:
        command, words = words[words.index('--') + 1:], words[:words.index('--')]
    if '--only' in words:
        only = words[words.index('--only') + 1]
    with open(os.path.join(HERE, 'scripts.jsonl'), encoding='utf-8') as table:
        rows = [row for row in map(json.loads, table) if row['id'].startswith(only)]
    tries = [(row, where) for row in rows for where in WHERE if where in row]
    modes = ('tree',) if in_gate else ('run', 'tree')
    made = wrong = 0
    overdue = signal.SIGALRM, raise_overdue
    with concurrent.futures.ProcessPoolExecutor(os.cpu_count(), initializer=signal.signal, initargs=overdue) as pool:
        waiting = [pool.submit(difference, command, row, where, modes) for row, where in tries]
        for (row, where), result in zip(tries, waiting):
            runs, differs = result.result()
            made += runs
            if differs:
                wrong += 1
                print(row['id'], where, differs, flush=True)
    if not (in_gate or only) and not piece_comes(command):
        wrong += 1
        print('no piece of output comes while the run goes on', flush=True)
    print(f'{len(rows)} scripts under every budget, {made} runs, {wrong} wrong')
    return 1 if wrong else 0


if __name__ == '__main__':
    sys.exit(main(sys.argv[1:]))
