#!/usr/bin/env python3
"""Times the program on scripts, beside other interpreters that are on PATH, and says how much memory it takes; or counts what it does.
It is run by hand, and is no part of the gate.

usage: bench/run.py [--runs N] [--only NAME] [COMMAND..]      times
       bench/run.py --peaks [--runs N] [--only NAME] [COMMAND..]     peaks of memory, and the bytes that one thing of a kind keeps
       bench/run.py --counts [--only NAME] [COMMAND..]        instructions a step, under valgrind
       bench/run.py --check [--only NAME] [COMMAND..]         whether steps, pieces of memory and instructions are those held
       bench/run.py --turns [--only NAME]                     whether turns, frames and objects are those held; wants rt, and some minutes
       bench/run.py --steps|--hold|--hold-turns [..]          writes each script's steps; the counts; the turns

COMMAND runs the program, with its words; left out, it is crates/worlds/out/worlds. --only: the scripts whose name begins so.

A script, of scripts/ or worlds/, begins with comments: the `kind` of what it does, where it is plain; its `sizes`, a small and a
large one, of which the line `var size = ..` has the large; and how many `steps` it takes of each. What it prints at its large size
is NAME.out. Of worlds/, NAME.plain.js does without worlds what NAME.js does with them, and prints the same.

Each script runs N times (3 if left out), and the least time of the processor counts; the interpreters run in turn, since a machine's
speed drifts, and each must print what is due. The columns are seconds, nanoseconds a step, megabytes at the peak, which the kernel
counts no lower than this runner itself had, and for each other interpreter its seconds and megabytes; last the seconds as a multiple
of mujs's. Then come the geometric means by kind, with what they should be at most. Of a script with worlds the other interpreters
run the plain one, and so does the program.

At last a loop with 1 MiB of dead code in its body goes on 100,000 times by a labelled `continue`, and by one without label, which
should take the same time; and scripts are generated (`--mode gen`): seconds, megabytes, and bytes a world.
"""
import glob
import math
import os
import re
import shutil
import subprocess
import sys
import tempfile

sys.dont_write_bytecode = True

HERE = os.path.dirname(os.path.abspath(__file__))
PROGRAM = os.path.join(os.path.dirname(HERE), 'crates/worlds/out/worlds')
MOST_STEPS = 10**12
STEPS_SPENT = 2
# what each needs in front of a script
OTHERS = {'mujs': '', 'qjs': '', 'node': 'var print = console.log;\n'}
NUMBERS = (1000, 20000, 50000)
# the setting that ./worlds gives the program
AS_STARTED = {'GLIBC_TUNABLES': 'glibc.malloc.hugetlb=1', **os.environ}
# at most so many times mujs, in the geometric mean of a kind; and of a script with worlds, beside its plain one in mujs
AIMS = {'calls': 2, 'closures': 2, 'exceptions': 1.5, 'loops': 1, 'arrays by index': 1, 'library array functions': 2,
        'objects and properties': 1, 'searches by recursion': 1.5, 'texts': 0.4}
AIM_OF_ALL = 1
AIMS_OF_WORLDS = {'queens': 4, 'siblings': 1, 'undo': 1}
AIM_OF_GENERATED = 0.6


class Script:
    """A script of a file, with what its comments say, and what it should print at its large size."""

    def __init__(self, path):
        self.path, self.name = path, os.path.basename(path)[:-3]
        with open(path, encoding='utf-8') as it:
            self.text = it.read()
        said = dict(re.findall(r'^// (kind|sizes|steps): (.*)\n', self.text, re.M))
        self.kind = said.get('kind')
        self.sizes = [int(size) for size in said['sizes'].split()]
        self.steps = [int(steps) for steps in said['steps'].split()] if 'steps' in said else None
        with open(os.path.join(os.path.dirname(path), self.name.split('.')[0] + '.out'), 'rb') as it:
            self.out = it.read()

    def of_size(self, size):
        text, found = re.subn(r'^var size = \d+;', f'var size = {size};', self.text, count=1, flags=re.M)
        if not found:
            sys.exit(f'{self.name}: no line `var size = ..`')
        return text

    def write_steps(self, steps):
        text = re.sub(r'^// steps: .*\n', '', self.text, flags=re.M)
        said = '// steps: ' + ' '.join(map(str, steps))
        with open(self.path, 'w', encoding='utf-8') as it:
            it.write(re.sub(r'^// sizes: .*\n', lambda line: f'{line[0]}{said}\n', text, count=1, flags=re.M))


def scripts_of(folder, only):
    paths = sorted(glob.glob(os.path.join(HERE, folder, '*.js')))
    return [script for script in map(Script, paths) if script.name.startswith(only)]


def run(words, given='', around=AS_STARTED):
    """The status, what was printed, the seconds of the processor, and the peak of memory in bytes."""
    with tempfile.TemporaryFile() as source, tempfile.TemporaryFile() as out:
        source.write(given.encode())
        source.seek(0)
        started = subprocess.Popen(words, stdin=source, stdout=out, stderr=subprocess.DEVNULL, env=around)
        _, status, used = os.wait4(started.pid, 0)
        started.returncode = os.waitstatus_to_exitcode(status)
        out.seek(0)
        return started.returncode, out.read(), used.ru_utime + used.ru_stime, used.ru_maxrss * 1024


def best_of_each(runs, commands):
    """For each command, (words, given, around), the run that took the least time; they run in turn."""
    rounds = [[run(*command) for command in commands] for _ in range(runs)]
    return [min(each, key=lambda it: it[2]) for each in zip(*rounds)]


def peers():
    return [peer for peer in OTHERS if shutil.which(peer)]


def best_beside(runs, program, texts, plain, due):
    """Seconds and bytes of each text in the program, and of the plain one in each other interpreter; all print what is due."""
    with tempfile.TemporaryDirectory() as folder:
        commands = [([*program, '--steps', str(MOST_STEPS)], text, AS_STARTED) for text in texts]
        for peer in peers():
            theirs = os.path.join(folder, f'{peer}.js')
            with open(theirs, 'w', encoding='utf-8') as it:
                it.write(OTHERS[peer] + plain)
            commands.append(([peer, theirs], '', os.environ))
        answers = best_of_each(runs, commands)
    for (words, _, _), (status, printed, _, _) in zip(commands, answers):
        if status or printed != due:
            sys.exit(f'{words[0]} ends with {status} and prints {printed!r}, where {due!r} is due')
    measured = [(seconds, peak) for _, _, seconds, peak in answers]
    return measured[:len(texts)], dict(zip(peers(), measured[len(texts):]))


def beside(measured):
    return ''.join(f'  {name} {seconds:.3f} s {peak / 1e6:.0f} MB' for name, (seconds, peak) in measured.items())


def multiple(seconds, others):
    return seconds / others['mujs'][0] if 'mujs' in others else None


def shown(times, aim=None):
    """A multiple of mujs's, with what it should be at most where that is known."""
    if times is None:
        return ''
    return f'{times:8.2f} x mujs' + (f'  of {aim}' + ('' if times <= aim else ' MISSED') if aim else '')


def time_script(runs, program, script):
    [(seconds, peak)], others = best_beside(runs, program, [script.text], script.text, script.out)
    a_step = f'{seconds * 1e9 / script.steps[1]:6.0f} ns a step' if script.steps else ''
    times = multiple(seconds, others)
    print(f'{script.name:12} {seconds:7.3f} s {a_step} {peak / 1e6:6.0f} MB{beside(others)}{shown(times)}', flush=True)
    return times


def time_worlds(runs, program, script, plain):
    (ours, own), others = best_beside(runs, program, [script.text, plain.text], plain.text, script.out)
    a_step = f'{ours[0] * 1e9 / script.steps[1]:6.0f} ns a step' if script.steps else ''
    times = multiple(ours[0], others)
    print(f'{script.name:12} {ours[0]:7.3f} s {a_step} {ours[1] / 1e6:6.0f} MB{beside({"without worlds": own} | others)}'
          f'{shown(times, AIMS_OF_WORLDS.get(script.name))}', flush=True)


def mean(numbers):
    return math.exp(sum(map(math.log, numbers)) / len(numbers))


def tell_means(scripts, multiples, what):
    """The geometric mean of each kind, and of all: where every script counts alike, and where every kind does."""
    kinds = {}
    for script, times in zip(scripts, multiples):
        if times:
            kinds.setdefault(script.kind, []).append(times)
    if not kinds and scripts:
        print('\nmujs is not on PATH: nothing is told as a multiple of it')
    if not kinds:
        return
    print(f'\n{what}')
    for kind, numbers in kinds.items():
        print(f'{kind:26}{shown(mean(numbers), AIMS.get(kind))}')
    print(f'{"all scripts":26}{shown(mean([it for numbers in kinds.values() for it in numbers]), AIM_OF_ALL)}')
    print(f'{"all kinds":26}{shown(mean([mean(numbers) for numbers in kinds.values()]), AIM_OF_ALL)}')


def time_generated(runs, program, number):
    words = [*program, '--mode', 'gen', '--number', str(number), '--steps', str(MOST_STEPS)]
    [(status, _, seconds, peak)] = best_of_each(runs, [(words, '', AS_STARTED)])
    if status:
        sys.exit(f'gen {number}: the program ended with {status}')
    aim = f'  of {AIM_OF_GENERATED} s' if number == NUMBERS[-1] else ''
    print(f'gen {number:5}    {seconds:7.3f} s {peak / 1e6:8.1f} MB {peak / number:8.0f} bytes a world{aim}', flush=True)


def time_labels(runs, program):
    dead = 'dead(1);\n' * (2**20 // 9)
    looping = lambda label, jump: f'{label} for (var i = 0; i < 100000; i++) {{ {jump}; {dead} }}'
    scripts = [looping('a:', 'continue a'), looping('', 'continue')]
    (status, _, labelled, _), (other, _, plain, _) = best_of_each(runs, [(program, script, AS_STARTED) for script in scripts])
    if status or other:
        sys.exit(f'labels: the program ended with {status} and {other}')
    print(f'dead code    {labelled:7.3f} s {plain:7.3f} s without label {labelled / plain:8.2f} x', flush=True)


def time_all(runs, program, only):
    scripts = scripts_of('scripts', only)
    multiples = [time_script(runs, program, script) for script in scripts]
    tell_means(scripts, multiples, 'seconds, as multiples')
    worlds = {script.name: script for script in scripts_of('worlds', only)}
    if worlds:
        print('\nwith worlds; the others without')
    for name, script in worlds.items():
        if not name.endswith('.plain'):
            time_worlds(runs, program, script, worlds[name + '.plain'])
    if not only:
        print()
        time_labels(runs, program)
        for number in NUMBERS:
            time_generated(runs, program, number)


def main(words):
    runs, only, does = 3, '', None
    while words and words[0].startswith('--'):
        word = words.pop(0)
        if word == '--runs':
            runs = int(words.pop(0))
        elif word == '--only':
            only = words.pop(0)
        elif word in ('--peaks', '--counts', '--check', '--turns', '--steps', '--hold', '--hold-turns'):
            does = word[2:].replace('-', '_')
        else:
            sys.exit(__doc__)
    program = words or [PROGRAM]
    if does is None:
        return time_all(runs, program, only)
    if does == 'peaks':
        import peaks
        return peaks.peaks(program, only, runs)
    import counts
    return getattr(counts, does)(program, only)


if __name__ == '__main__':
    sys.exit(main(sys.argv[1:]))
