#!/usr/bin/env python3
"""Runs the definitions of the meaning on scripts, inside the prover: each row of ../rows.jsonl and ../steps.jsonl that takes few
enough steps becomes a theorem, that the run of its tree gives the bytes and the ending of the row, which is proved by computation alone.
So does each play of plays.jsonl, by the definitions of wjs_alone.

usage: tests/meaning/run.py [WORD..]     only the rows and plays whose id begins with a WORD

std's finite maps don't compute outside their module, and its digits of a number take as many turns as the number has units, so the
definitions are copied with plain ones in their place: sorted lists, and digits by division. The trees come
from trees.py. A planted wrong expectation must be refused.
"""
import json
import os
import re
import shutil
import subprocess
import sys
import tempfile

sys.dont_write_bytecode = True

from trees import tree, spelled_list

HERE = os.path.dirname(os.path.abspath(__file__))
TOP = os.path.dirname(os.path.dirname(HERE))
# outside the repository, whose gate knows no files of proofs beside its crates
OUT = os.path.join(tempfile.gettempdir(), f'worlds-meaning-{os.getuid()}')
PER_FILE = 12
# rows that take more than about 400 steps, or texts of millions of units
TOO_LONG = {'case-16a', 'case-18', 'case-19', 'case-28', 'chain-of-200-worlds', 'many-additions', 'many-elses', 'text-too-long'}
COPIED = {
    'wjs_num': ['Digits'],
    'wjs_store': ['Naming', 'State'],
    'wjs_by_content': ['Rename', 'Values', 'Names', 'Objects', 'Plans', 'Conversions', 'Properties'],
    'wjs_meaning': None,
    'wjs_session': ['Along'],
    'wjs_alone': None,
}
LIBRARIES = ['wjs_base', 'wjs_num', 'wjs_arena', 'wjs_tree', 'wjs_store', 'wjs_by_content', 'wjs_meaning']
LEFT_OUT = {'Lib', 'Laws', 'Reading', 'Views', 'Named', 'Fronts'}

MAPS = open(os.path.join(HERE, 'Maps.antt.txt')).read()
HEAD = open(os.path.join(HERE, 'Head.antt.txt')).read()
SHOWN = open(os.path.join(HERE, 'Shown.antt.txt')).read()
USE_SHOWN = 'use Rattle.rows.proofs.Shown.{bytes_of, tree_bytes_of}\n'
USE_LIBRARY = 'use Rattle.rows.proofs.Library.{tree_library}\n'
USE_PLAYS = 'use Rattle.std.specs.Option.{option_map}\nuse Rattle.rows.specs.AlonePlaying.{play, bytes_of}\n'


def copied_modules():
    found = []
    for crate, modules in COPIED.items():
        folder = os.path.join(TOP, 'crates', crate, 'specs')
        if not os.path.isdir(folder):
            continue
        for module in modules or sorted(f[:-5] for f in os.listdir(folder) if f.endswith('.antt')):
            path = os.path.join(folder, module + '.antt')
            if module not in LEFT_OUT and os.path.exists(path):
                found.append((crate, module, path))
    return found


def copy_of(text, modules):
    for crate, module, _ in modules:
        text = re.sub(rf'Rattle\.{crate}\.specs\.{module}\b', f'Rattle.rows.specs.{name_of(crate, module)}', text)
    text = text.replace('unfoldable pub', 'abbrev pub')
    text = text.replace('use Rattle.std.specs.Int.Digits.{digits_of}', 'use Rattle.rows.specs.Maps.{digits_of}')
    text = text.replace('use Rattle.std.specs.FinMap as map', 'use Rattle.rows.specs.Maps as map')
    return text.replace('use Rattle.std.specs.FinMap.{FinMap}', 'use Rattle.rows.specs.Maps.{FinMap}')


def name_of(crate, module):
    return crate.removeprefix('wjs_').capitalize() + module


def write(path, text):
    os.makedirs(os.path.dirname(path), exist_ok=True)
    with open(path, 'w') as f:
        f.write(text)


def bring(crate):
    """A copy of a crate with what is proved of it, since a repository's crates stand within it."""
    source, copy = os.path.join(TOP, 'crates', crate), os.path.join(OUT, 'crates', crate)
    if subprocess.run(['diff', '-rq', source, copy], capture_output=True).returncode:
        shutil.rmtree(copy, ignore_errors=True)
        os.makedirs(os.path.dirname(copy), exist_ok=True)
        subprocess.run(['cp', '-a', source, copy], check=True)


def make_repository():
    for made in ('specs', 'proofs'):
        shutil.rmtree(os.path.join(OUT, 'crates', 'rows', made), ignore_errors=True)
    lines = [line for line in open(os.path.join(TOP, 'crates.txt')) if line.split(':')[0] in LIBRARIES]
    there = [line.split(':')[0] for line in lines]
    write(os.path.join(OUT, 'crates.txt'), ''.join(lines) + 'rows: ' + ' '.join(there) + '\n')
    for crate in there:
        bring(crate)
    rows = os.path.join(OUT, 'crates', 'rows')
    modules = copied_modules()
    names = ['Maps'] + [name_of(c, m) for c, m, _ in modules]
    write(os.path.join(rows, 'src', 'lib.rt'), '//! Rows run by computation.\n#![tactic(auto)]\n')
    write(os.path.join(rows, 'specs', 'Lib.antt'), ''.join(f'pub mod {n}\n' for n in names))
    write(os.path.join(rows, 'specs', 'Maps.antt'), MAPS)
    for crate, module, path in modules:
        text = open(path).read()
        if (crate, module) == ('wjs_by_content', 'Rename'):
            text = re.sub(r'-- each entry.*?\n\n', '', text, flags=re.S)
        write(os.path.join(rows, 'specs', name_of(crate, module) + '.antt'), copy_of(text, modules))
    return rows


def wanted(row, words):
    return row['status'] in (0, 1, 2) and 'stdin' in row and row['id'] not in TOO_LONG and 'check' not in row['words'] and 'gen' not in row['words'] and (not words or any(row['id'].startswith(w) for w in words))


def rows_of(words):
    found = [json.loads(line) for name in ('rows.jsonl', 'steps.jsonl') for line in open(os.path.join(os.path.dirname(HERE), name))]
    return [row for row in found if wanted(row, words)]


def option_of(row, name, default):
    return row['words'][row['words'].index(name) + 1] if name in row['words'] else default


def bytes_of(text):
    return spelled_list(text.encode('utf-8'))


def theorem(row, name, planted=''):
    shown = 'tree_bytes_of' if option_of(row, '--mode', 'run') == 'tree' else 'bytes_of'
    run = f'{shown} (machine (Some tree_library) tree_{name} {option_of(row, "--steps", "20000")})'
    return f'pub test_{name} : {run} ≡ ({bytes_of(row["out"] + planted)}, {bytes_of(row["err"])})\nunfolding {OPENED}\ntest_{name} = refl\n'


def plays_of(words):
    plays = [json.loads(line) for line in open(os.path.join(HERE, 'plays.jsonl'))]
    return [p for p in plays if not words or any(p['id'].startswith(w) for w in words)]


def play_theorem(play, planted=''):
    """A play without a library: its parts' trees, and that the play of its schedule gives its bytes."""
    name = re.sub(r'\W', '_', play['id'])
    parts = [f'{name}_{i}' for i in range(1, len(play['parts']) + 1)]
    trees = '(' + ' ∷ '.join([f'tree_{part}' for part in parts] + ['[]']) + ')'
    turns = '(' + ' ∷ '.join([f'record {{ activity = {a}; steps = {n} }}' for a, n in play['schedule']] + ['[]']) + ')'
    said = f'option_map (bytes_of None {trees} {play["steps"]}) (play None {trees} {play["steps"]} {turns} {play["turn"]})'
    text = ''.join('\n' + tree(part, source) for part, source in zip(parts, play['parts']))
    return text + f'\npub test_{name} : {said} ≡ Some ({bytes_of(play["out"] + planted)})\nunfolding {OPENED}\ntest_{name} = refl\n'


OPENED = 'digits encode_utf8 utf16_chars'


def library():
    text = open(os.path.join(TOP, 'crates', 'wjs_meaning', 'src', 'library.rt')).read()
    return re.search(r'LIBRARY: &str = r#"(.*?)"#;', text, flags=re.S)[1]


def write_tests(rows, plays, folder):
    write(os.path.join(folder, 'proofs', 'Shown.antt'), HEAD + '\n' + SHOWN)
    write(os.path.join(folder, 'proofs', 'Library.antt'), HEAD + USE_SHOWN + '\n' + tree('library', library()))
    names = ['Shown', 'Library']
    for start in range(0, len(rows), PER_FILE):
        name = f'Rows{start // PER_FILE}'
        names.append(name)
        text = HEAD + USE_SHOWN + USE_LIBRARY
        for i, row in enumerate(rows[start:start + PER_FILE]):
            ident = re.sub(r'\W', '_', row['id'])
            text += '\n' + tree(ident, row['stdin']) + '\n' + theorem(row, ident)
        write(os.path.join(folder, 'proofs', name + '.antt'), text)
    if plays:
        names.append('Plays')
        write(os.path.join(folder, 'proofs', 'Plays.antt'), HEAD + USE_PLAYS + ''.join(play_theorem(play) for play in plays))
    write(os.path.join(folder, 'proofs', 'Lib.antt'), ''.join(f'pub mod {n}\n' for n in names))


def check(folder):
    done = subprocess.run(os.environ.get('SLOT', '').split() + ['rt', 'check'], cwd=folder, capture_output=True, text=True)
    return done.returncode, done.stdout + done.stderr


def planted_is_refused(folder, rows, plays):
    if rows:
        text = HEAD + USE_SHOWN + USE_LIBRARY + '\n' + tree('planted', rows[0]['stdin']) + '\n' + theorem(rows[0], 'planted', ' ')
    else:
        text = HEAD + USE_PLAYS + play_theorem({**plays[0], 'id': 'planted'}, ' ')
    write(os.path.join(folder, 'proofs', 'Planted.antt'), text)
    with open(os.path.join(folder, 'proofs', 'Lib.antt'), 'a') as f:
        f.write('pub mod Planted\n')
    code, said = check(folder)
    return code != 0 and 'test_planted' in said


def main():
    rows, plays = rows_of(sys.argv[1:]), plays_of(sys.argv[1:])
    folder = make_repository()
    write_tests(rows, plays, folder)
    code, said = check(folder)
    if code != 0:
        print('\n'.join(line for line in said.splitlines() if 'error' in line or 'rows' in line)[:8000])
        print(f'{len(rows)} rows and {len(plays)} plays: not all of them hold')
        return 1
    refused = planted_is_refused(folder, rows, plays)
    print(f'{len(rows)} rows and {len(plays)} plays hold by computation; a planted wrong expectation is {"" if refused else "NOT "}refused')
    return 0 if refused else 1


if __name__ == '__main__':
    sys.exit(main())
