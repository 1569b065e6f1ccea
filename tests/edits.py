#!/usr/bin/env python3
"""Edits that the prover must refuse, beside those that each gate tries.

`tests/edits/CRATE/*.edit` are written as `crates/CRATE/must-fail/*.edit` are. They turn inner crates, whose contracts the crates
above pin down: a contract that let such a body through would leave those unproved, so no gate needs to try them. A few of the
outermost crate tell what one that each gate tries tells, too.

    tests/edits.py CRATE..   tries the edits of these crates (none named: of all), and of no others, on a copy of the checkout
    tests/edits.py --gate    tries none; each edit, here and in crates/, can still be made: its old text stands in its file exactly once
"""
import glob
import os
import shutil
import subprocess
import sys
import tempfile

TOP = os.path.dirname(os.path.dirname(os.path.abspath(__file__)))
HERE = os.path.join(TOP, 'tests', 'edits')


def stale(path, crate):
    """A line for each fault of an edit's form. The pairs of an edit are made one after another."""
    with open(path, encoding='utf-8') as text:
        lines = text.read().splitlines()
    source, olds, news = '', [], 0
    for line in lines:
        if line.startswith('file: '):
            with open(os.path.join(TOP, 'crates', crate, line[6:].strip()), encoding='utf-8') as file:
                source = file.read()
        elif line.startswith('old: '):
            olds.append(line[5:])
            if source.count(line[5:]) != 1:
                yield f'{path}: stands {source.count(line[5:])} times: {line[5:]}'
        elif line.startswith('new: ') and olds:
            news += 1
            source = source.replace(olds[-1], line[5:])
    if not olds or len(olds) != news:
        yield f'{path}: {len(olds)} old texts and {news} new ones'


def all_stale():
    for pattern, depth in (('tests/edits/*/*.edit', 2), ('crates/*/must-fail/*.edit', 3)):
        for path in sorted(glob.glob(os.path.join(TOP, pattern))):
            yield from stale(path, path.split(os.sep)[-depth])


def tried(crates):
    with tempfile.TemporaryDirectory() as top:
        ours = subprocess.run(['git', 'ls-files', '-z'], cwd=TOP, check=True, capture_output=True).stdout
        for name in ours.decode().split('\0'):
            if name and '/must-fail/' not in name and os.path.isfile(os.path.join(TOP, name)):
                os.makedirs(os.path.join(top, os.path.dirname(name)), exist_ok=True)
                shutil.copy(os.path.join(TOP, name), os.path.join(top, name))
        for crate in crates:
            shutil.copytree(os.path.join(HERE, crate), os.path.join(top, 'crates', crate, 'must-fail'))
        subprocess.run(['git', 'init', '-q'], cwd=top, check=True)
        return subprocess.run(['rt', 'ci', *crates], cwd=top).returncode


def main():
    faults = list(all_stale())
    for fault in faults:
        print(fault, file=sys.stderr)
    if faults:
        sys.exit(1)
    if sys.argv[1:] != ['--gate']:
        sys.exit(tried(sys.argv[1:] or sorted(os.listdir(HERE))))


if __name__ == '__main__':
    main()
