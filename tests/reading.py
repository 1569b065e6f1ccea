#!/usr/bin/env python3
"""Counts what a reader has to read to believe the main theorem: the definitions that the clauses of `command` lead to.

usage: tests/reading.py [--list]     --list: a line for each file, with the names of what is read there

From the names in the clauses of `command` it follows each definition to those that it names, over the specs/ of the repository's
crates and of the kit's `clap`. It counts lines without blanks, comments and imports. What std defines is not followed.
"""
import collections
import os
import re
import subprocess
import sys

TOP = os.path.dirname(os.path.dirname(os.path.abspath(__file__)))
START = ('wjs_command', 'src/work.rt', 'pub fn command<')
WORD = re.compile(r"[^\s(){}\[\],;.@\\]+")
# What binds variables: types in brackets, λ and `let`; and the fields of a record.
BINDERS = (re.compile(r'[({]([^(){}:]+) :'), re.compile(r'λ ([^.]+)\.'), re.compile(r'\blet (\S+)'), re.compile(r'^(?:pub )?(\S+) :'))


def kit_folder():
    said = subprocess.run(['rt', 'doc'], capture_output=True, text=True).stdout.split()
    return os.path.join(os.path.dirname(said[0]), 'rattle') if said else '/opt/rattle/rattle'


FOLDERS = {name: os.path.join(TOP, 'crates', name) for name in os.listdir(os.path.join(TOP, 'crates'))}
FOLDERS['clap'] = os.path.join(kit_folder(), 'clap')


def file_of(module):
    """The file of a module path, or None where it is not one of specs/ of the crates that are followed."""
    parts = module.split('.')
    if parts[0] == 'Rattle':
        parts = parts[1:]
    if parts[0] not in FOLDERS or parts[1:2] != ['specs']:
        return None
    path = os.path.join(FOLDERS[parts[0]], *parts[1:]) + '.antt'
    return path if os.path.isfile(path) else None


def imports_of(lines, is_rust=False):
    """Where each name of a file comes from: (module, name there), and (module, None) for the name of a module."""
    found = {}
    for line in lines:
        line = line.strip()
        held = re.match(r'(?:ghost |pub )*use ([\w.]+?)(?:\.\{(.*)\})?(?: as (\S+?))?;?$', line)
        if not held or (is_rust and not line.startswith('ghost use')):
            continue
        module, names, alias = held.groups()
        if names is None:
            found[alias or module.rpartition('.')[2]] = (module, None)
        for name in (names or '').split(','):
            name, _, other = name.strip().partition(' as ')
            found[other or name] = (module, name)
    return found


class File:
    """A file of definitions: for each name the lines of its item, without blanks, comments and imports."""

    def __init__(self, path):
        self.path = path
        with open(path, encoding='utf-8') as it:
            lines = it.read().split('\n')
        self.imports = imports_of(lines)
        self.items, self.names, self.given = [], {}, set()
        item, depth_of_item = None, 0
        for line in lines:
            text = line.strip()
            if not text or text.startswith('--') or re.match(r'(pub )?(use|mod) ', text):
                continue
            depth = len(line) - len(line.lstrip())
            if re.match(r'(abbrev )?(mutual|module\b.*where|module\b.*)$', text) and not text.startswith('module.'):
                item = None
                self.given |= bound_by(text)
                continue
            head = re.match(r'(?:(?:abbrev|pub|data|record|unfoldable|pattern) )*(\S+) (?:\{[^}]*\} |\([^)]*\) )*(?::|\()?', text)
            begins = re.match(r"(?:(?:abbrev|pub|data|record|unfoldable) )+(\S+)", text) or re.match(r"(\S+) : ", text)
            is_field = item is not None and depth > depth_of_item
            if begins and not is_field and not (item is not None and text.split()[0] == item['name']):
                name = begins[1]
                item = {'name': name, 'lines': []}
                depth_of_item = depth
                self.items.append(item)
                self.names[name] = item
            if item is None:
                continue
            item['lines'].append(text)
            field = re.match(r'(?:pub )?(\S+) :', text)
            # the constructors and fields of a type lead to the type
            if is_field and field:
                self.names.setdefault(field[1], item)


def bound_by(text):
    return {name for binder in BINDERS for found in binder.findall(text) for name in WORD.findall(found)}


def local_to(held, item):
    """The names of a file that an item may mean. A variable that is named as a field of another type doesn't mean that type."""
    bound = set(held.given)
    for line in item['lines']:
        bound |= bound_by(line)
        if line.startswith(item['name'] + ' ') and ' = ' in line:
            bound |= set(WORD.findall(line.partition(' = ')[0]))
    return {name: (held, it) for name, it in held.names.items() if it['name'] == name or name not in bound}


FILES = {}


def opened(path):
    if path not in FILES:
        FILES[path] = File(path)
    return FILES[path]


def definition(module, name):
    """The file and the item that a name of a module is, also where the module passes it on."""
    path = file_of(module)
    if path is None:
        return None
    it = opened(path)
    if name in it.names:
        return it, it.names[name]
    if name in it.imports and it.imports[name][1]:
        return definition(*it.imports[name])
    return None


def named(text, imports, local):
    """What the words of a text are: items of the file itself, or of other modules."""
    for word in re.findall(r"[^\s(){}\[\],;]+", text):
        head, _, tail = word.partition('.')
        for name in {word, head}:
            if name in local:
                yield local[name]
            elif name in imports:
                module, there = imports[name]
                if there is None:
                    tail and (yield definition(module, tail.partition('.')[0]))
                else:
                    yield definition(module, there)


def clauses():
    crate, path, head = START
    with open(os.path.join(TOP, 'crates', crate, path), encoding='utf-8') as it:
        whole = it.read()
    text = whole[whole.index(head):]
    return text[:text.index('\n{\n')], imports_of(whole.split('\n'), is_rust=True)


def main():
    text, imports = clauses()
    waiting = [it for it in named(text, imports, {}) if it]
    read = collections.OrderedDict()
    while waiting:
        held, item = waiting.pop()
        if (held.path, item['name']) in read:
            continue
        read[held.path, item['name']] = len(item['lines'])
        local = local_to(held, item)
        waiting += [it for line in item['lines'] for it in named(line, held.imports, local) if it]
    by_file = collections.defaultdict(list)
    for path, name in read:
        by_file[path].append(name)
    if sys.argv[1:] == ['--list']:
        for path in sorted(by_file):
            print(os.path.relpath(path, TOP), sum(read[path, name] for name in by_file[path]), ' '.join(by_file[path]))
    of_clap = {path for path in by_file if path.startswith(FOLDERS['clap'] + os.sep)}
    count = lambda paths: (sum(read[path, name] for path in paths for name in by_file[path]), len(paths))
    print('%d lines of definitions in %d files of this repository' % count(by_file.keys() - of_clap))
    print('%d lines of definitions in %d files of clap' % count(of_clap))


if __name__ == '__main__':
    main()
