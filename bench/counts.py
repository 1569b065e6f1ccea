"""Counts what the program does, which run.py tells: numbers that don't hang on how fast a machine is.

Steps, and pieces of memory that are asked for, are exact: the same on every machine. Instructions are those of the processor, counted
by valgrind's callgrind: two runs on one machine differ by less than a thousandth; other processors have other copies in the C library.
What a step takes is the difference of the runs of a script at its large and its small size, by the difference of their steps, so that
what a start takes doesn't count.

Turns are exact too. The program can't tell them; turns.main.txt, a program that is compiled unproved (`rt try`) beside a copy of the
crates, counts them, the frames that they leave above those they began with, and the objects that are made. They show where a form
falls back to more turns and frames, which no contract can say. A frame that is made and ends within one turn isn't counted.

counts.json holds what each script took at its small size.
"""
import collections
import concurrent.futures
import json
import os
import re
import shutil
import subprocess
import sys
import tempfile

from run import AS_STARTED, HERE, MOST_STEPS, OTHERS, STEPS_SPENT, run, scripts_of, shown, tell_means

HELD = os.path.join(HERE, 'counts.json')
TOP = os.path.dirname(HERE)
COUNTER = os.path.join(TOP, 'tests', 'hostile', 'refuse.c')
TURNS_NAME = 'turns_bench'
TURNS_NAMES = 'wjs_base wjs_texts wjs_io wjs_load wjs_machine wjs_model wjs_overlay wjs_start'
TURNS_COUNTS = 'turns', 'frames', 'objects'
# what only the copy of the crates has, behind the frames of wjs_model
HEIGHT = '''
impl Frames {
    /// How many frames there are, in a run.
    pub fn height(&self) -> u64 {
        let on_top = match &self.stack.top {
            Some(_) => 1u64,
            None => 0u64,
        };
        on_top.saturating_add(self.stack.list.len() as u64)
    }
}
'''
# so much more than is held is too much; in percent
MOST_MORE = 3
DEAREST = 10


class Profile:
    """What callgrind wrote of a run: the instructions, of each function its own, and how often each was called."""

    def __init__(self, path):
        self.own, self.calls = collections.Counter(), collections.Counter()
        names, function, of_call = {}, '', False
        with open(path, encoding='utf-8', errors='replace') as lines:
            for line in lines:
                named = re.match(r'(c?fn)=\((\d+)\)(?: (.*))?$', line)
                if named:
                    kind, number, name = named.groups()
                    names.setdefault(number, name)
                    if kind == 'fn':
                        function = names[number]
                    else:
                        callee = names[number]
                elif line.startswith('calls='):
                    self.calls[callee] += int(line[6:].split()[0])
                    of_call = True
                elif line[:1] in set('0123456789+-*'):
                    # the line behind `calls=` has what the callee took
                    if not of_call:
                        self.own[function] += int(line.split()[1])
                    of_call = False
        self.instructions = sum(self.own.values())


def profile_of(words, given=''):
    with tempfile.TemporaryDirectory() as folder:
        path = os.path.join(folder, 'profile')
        status, *_ = run(['valgrind', '--tool=callgrind', f'--callgrind-out-file={path}', *words], given, os.environ)
        if status:
            sys.exit(f'{words[0]} under valgrind ends with {status}')
        return Profile(path)


def ours(program, script, size):
    return profile_of([*program, '--steps', str(MOST_STEPS)], script.of_size(size))


def theirs(script, size):
    with tempfile.NamedTemporaryFile('w', encoding='utf-8', suffix='.js') as it:
        it.write(OTHERS['mujs'] + script.of_size(size))
        it.flush()
        return profile_of(['mujs', it.name])


class Pieces:
    """Counts the pieces of memory that a run asks for, by a library that is put before the C library's own calls."""

    def __init__(self, folder):
        self.library = os.path.join(folder, 'refuse.so')
        subprocess.run(['cc', '-O1', '-shared', '-fPIC', '-o', self.library, COUNTER], check=True)

    def of(self, program, script, size):
        with tempfile.NamedTemporaryFile('r', encoding='ascii') as told:
            around = AS_STARTED | {'LD_PRELOAD': self.library, 'REFUSE_TOLD': told.name}
            status, *_ = run([*program, '--steps', str(MOST_STEPS)], script.of_size(size), around)
            if status:
                sys.exit(f'{script.name}: the program ends with {status}')
            return int(told.read())


def in_turn(work, items):
    """What is made of each item, as many at once as there are processors."""
    with concurrent.futures.ThreadPoolExecutor(os.cpu_count()) as pool:
        yield from zip(items, pool.map(work, items))


def all_scripts(only):
    return scripts_of('scripts', only) + scripts_of('worlds', only)


def spends(program, text, steps):
    return run([*program, '--steps', str(steps)], text)[0] == STEPS_SPENT


def takes(program, text, steps):
    """Whether a script takes exactly so many steps."""
    return spends(program, text, steps - 1) and not spends(program, text, steps)


def steps_of(program, text):
    """The least number of steps with which a script ends."""
    least, most = 0, 1000
    while spends(program, text, most):
        least, most = most, most * 2
    while most - least > 1:
        middle = (least + most) // 2
        least, most = (middle, most) if spends(program, text, middle) else (least, middle)
    return most


def steps(program, only):
    def found(script):
        held = script.steps or [None, None]
        texts = [script.of_size(size) for size in script.sizes]
        return [was if was and takes(program, text, was) else steps_of(program, text) for text, was in zip(texts, held)]
    for script, taken in in_turn(found, all_scripts(only)):
        if taken != script.steps:
            print(script.name, *taken, f'in place of {script.steps}' if script.steps else '', flush=True)
            script.write_steps(taken)


def tell_dearest(profiles):
    own = collections.Counter()
    for small, large in profiles:
        own += large.own - small.own
    print('\nwhere the instructions go')
    for name, cost in own.most_common(DEAREST):
        print(f'{cost * 100 / own.total():5.1f} %  {name}')


def counts(program, only):
    scripts, multiples, profiles = all_scripts(only), [], []

    def counted(script):
        both = [ours(program, script, size) for size in script.sizes]
        return both, with_mujs and 'thisWorld' not in script.text and [theirs(script, size).instructions for size in script.sizes]
    with_mujs = shutil.which('mujs')
    with tempfile.TemporaryDirectory() as folder:
        pieces = Pieces(folder)
        for script, (both, others) in in_turn(counted, scripts):
            more = script.steps[1] - script.steps[0]
            a_step = (both[1].instructions - both[0].instructions) / more
            asked = pieces.of(program, script, script.sizes[1]) - pieces.of(program, script, script.sizes[0])
            their_step = (others[1] - others[0]) / more if others else None
            multiples.append(a_step / their_step if others else None)
            profiles.append(both)
            beside = f'  mujs {their_step:5.0f}' if others else ''
            print(f'{script.name:14} {a_step:5.0f} instructions and {asked / more:6.3f} pieces a step{beside}{shown(multiples[-1])}',
                  flush=True)
    plain = [(script, times) for script, times in zip(scripts, multiples) if script.kind]
    tell_means([script for script, _ in plain], [times for _, times in plain], 'instructions, as multiples')
    tell_dearest(profiles)


def small_counts(program, scripts):
    """For each script its pieces of memory and its instructions at its small size, as far as they can be counted here."""
    with tempfile.TemporaryDirectory() as folder:
        pieces = Pieces(folder) if shutil.which('cc') else None
        with_valgrind = shutil.which('valgrind')
        if not pieces or not with_valgrind:
            print('without cc no pieces of memory are counted, without valgrind no instructions')

        def counted(script):
            size = script.sizes[0]
            found = {'pieces': pieces.of(program, script, size)} if pieces else {}
            return found | ({'instructions': ours(program, script, size).instructions} if with_valgrind else {})
        yield from in_turn(counted, scripts)


def held_counts():
    with open(HELD, encoding='utf-8') as it:
        return json.load(it)


def hold_counts(found):
    """Holds what was found of each script by its name, beside what is held of it else."""
    held = held_counts()
    for name, counted in found:
        held[name] = held.get(name, {}) | counted
    with open(HELD, 'w', encoding='utf-8') as it:
        it.write('{\n' + ',\n'.join(f'{json.dumps(name)}: {json.dumps(held[name])}' for name in sorted(held)) + '\n}\n')


def hold(program, only):
    hold_counts((script.name, found) for script, found in small_counts(program, all_scripts(only)))


def turns_of(scripts):
    """For each script the steps, turns, frames and objects of its run at its small size."""
    with tempfile.TemporaryDirectory() as folder:
        bench = os.path.join(folder, 'crates', TURNS_NAME, 'src')
        shutil.copytree(os.path.join(TOP, 'crates'), os.path.join(folder, 'crates'), ignore=shutil.ignore_patterns('out'))
        os.makedirs(bench)
        shutil.copy(os.path.join(HERE, 'turns.main.txt'), os.path.join(bench, 'main.rt'))
        with open(os.path.join(folder, 'crates', 'wjs_model', 'src', 'frame.rt'), 'a') as frames:
            frames.write(HEIGHT)
        shutil.copy(os.path.join(TOP, 'HANDLES'), folder)
        with open(os.path.join(TOP, 'crates.txt'), encoding='utf-8') as old, open(os.path.join(folder, 'crates.txt'), 'w') as new:
            new.write(f'{old.read()}{TURNS_NAME}: {TURNS_NAMES}\n')
        given = ''.join(script.of_size(script.sizes[0]) + '\0' for script in scripts)
        # with words it is run as compiled code alone
        done = subprocess.run(['rt', 'try', '--seconds', '600', '--', 'count'], cwd=os.path.dirname(bench), input=given.encode(), capture_output=True)
    lines = done.stdout.decode().splitlines()
    if done.returncode or len(lines) != len(scripts) or '-' in lines:
        sys.exit(f'rt try ends with {done.returncode}: {done.stderr.decode()[-2000:]}')
    return {script.name: tuple(map(int, line.split())) for script, line in zip(scripts, lines)}


def turns(program, only, holds=False):
    """Tells the turns, frames and objects a step; whether they are those that are held: 1 where not."""
    scripts, wrong, held = all_scripts(only), 0, held_counts()
    found = {name: dict(zip(('steps', *TURNS_COUNTS), counted)) for name, counted in turns_of(scripts).items()}
    for script in scripts:
        it, due = found[script.name], held.get(script.name, {}) | {'steps': script.steps[0]}
        differs = {key: due.get(key) for key in it if it[key] != due.get(key)}
        wrong += bool(differs)
        print(f'{script.name:14}', *(f'{it[key] / it["steps"]:6.3f} {key}' for key in TURNS_COUNTS), 'a step',
              f'({it}, where are held {differs})' if differs else '', flush=True)
    if holds:
        hold_counts((name, {key: it[key] for key in TURNS_COUNTS}) for name, it in found.items())
    print(f'{len(scripts)} scripts, {wrong} differ')
    return 1 if wrong and not holds else 0


def hold_turns(program, only):
    return turns(program, only, True)


def faults(script, found, held, exact):
    """What is told of a script whose counts are others than those that are held."""
    if not exact:
        yield f'does not take {script.steps} steps'
    if found.get('pieces', held['pieces']) != held['pieces']:
        yield f'asks for {found["pieces"]} pieces of memory, {held["pieces"]} are held'
    if found.get('instructions', 0) > held['instructions'] * (1 + MOST_MORE / 100):
        yield f'takes {found["instructions"]} instructions, {held["instructions"]} are held'


def check(program, only):
    """Whether steps and pieces are exactly, and instructions nearly, those that are held; 1 where not."""
    scripts, wrong, held = all_scripts(only), 0, held_counts()

    def exact(script):
        return all(takes(program, script.of_size(size), taken) for size, taken in zip(script.sizes, script.steps))
    exacts = {script.name: it for script, it in in_turn(exact, scripts)}
    for script, found in small_counts(program, scripts):
        for fault in faults(script, found, held[script.name], exacts[script.name]):
            wrong += 1
            print(script.name, fault, flush=True)
    print(f'{len(scripts)} scripts, {wrong} counts differ')
    return 1 if wrong else 0
