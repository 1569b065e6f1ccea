#!/usr/bin/env python3
"""Whether crates.txt lists for each crate only libraries that the crate names, and each crate behind those that it names.

A crate names a library in its sources, definitions, proofs and must-fail edits: `NAME::`, `use NAME` or `Rattle.NAME`.
Each that is listed and never named has a line here, and the status is then 1: before its first proof `rt` walks every way
through crates.txt, and each needless entry makes these ways many more. A crate that stands before a library that it lists has
one too, so that the file keeps the order of the layers.
"""
import glob
import os
import re
import sys

TOP = os.path.dirname(os.path.dirname(os.path.abspath(__file__)))
WRITTEN = ('src/**/*.rt', 'specs/**/*.antt', 'proofs/**/*.antt', 'must-fail/*.edit')


def listed():
    with open(os.path.join(TOP, 'crates.txt'), encoding='utf-8') as lines:
        for line in lines:
            crate, _, libraries = line.partition('#')[0].partition(':')
            if crate.strip():
                yield crate.split()[0], libraries.split()


def named(crate):
    for pattern in WRITTEN:
        for path in glob.glob(os.path.join(TOP, 'crates', crate, pattern), recursive=True):
            with open(path, encoding='utf-8') as text:
                for names in re.findall(r'\bRattle\.(\w+)|\b(\w+)::|\buse (?!Rattle\b)(\w+)', text.read()):
                    yield from filter(None, names)


def faults():
    crates = dict(listed())
    above = set()
    for crate, libraries in crates.items():
        for library in sorted(set(libraries) - set(named(crate))):
            yield f'{crate} lists {library} and never names it'
        for library in libraries:
            if library in crates and library not in above:
                yield f'{crate} stands before {library}, which it lists'
        above.add(crate)


def main():
    found = list(faults())
    for fault in found:
        print(f'crates.txt: {fault}', file=sys.stderr)
    sys.exit(1 if found else 0)


if __name__ == '__main__':
    main()
