#!/usr/bin/env python3
"""Runs the program on bytes at random and on mutated scripts, by hand; it is no part of the gate.

usage: tests/hostile/fuzz.py FIRST COUNT [-- COMMAND..]     the seeds FIRST, FIRST + 1 ..

A seed makes an input of 1 KB to 1 MB: bytes, characters, tokens, or forms that are opened and not closed, at random; or scripts of the
tables, one after another, as they are, or with tokens swapped for others of their kind, or with pieces put in, left out, doubled and
moved. It is checked and then run, or run in mode
tree, with 100,000 steps and 2 GB. Each run must end with a status and a line of README's table, in processor time that is in
proportion (2 seconds, and 4 more for each MB). It is `not UTF-8` exactly where Python says so. A refusal is the same in both runs, and
nothing is printed. A seed that fails has a line, and the last line counts the endings; its input is kept in the folder that is named.
"""
import collections
import glob
import json
import os
import random
import re
import resource
import subprocess
import sys
import tempfile

TOP = os.path.dirname(os.path.dirname(os.path.dirname(os.path.abspath(__file__))))
KINDS = re.compile(r'(?P<word>\b(?!(?:var|in|if|else|for|while|do|try|catch|finally|function|return|throw|switch|case|default|break|continue'
                   r'|new|delete|typeof|void|instanceof|with|null|true|false|this|thisWorld)\b)[A-Za-z_]\w*)|(?P<number>\b\d+\b)|(?P<text>"[^"\\\n]*")'
                   r'|(?P<sign> (?:[-+*/%&|^<>]|===?|!==?|<<|>>>?|&&|\|\|) )')
MEMORY, SECONDS = 2 << 30, 120
LINES = {0: rb'', 1: rb'uncaught .*\n', 2: rb'step budget spent\n', 3: rb'out of memory\n',
         4: rb'(too long|not UTF-8|line [1-9][0-9]*: not a token|(line [1-9][0-9]*: )?syntax error)\n'}
TOKENS = ('{ } ( ) [ ] . ; , < > <= >= == != === !== + - * / % ++ -- << >> >>> & | ^ ! ~ && || ? : = += -= *= /= %= <<= >>= >>>= &= |= ^= '
          'break case catch continue default delete do else finally for function if in instanceof new return switch this throw try typeof '
          'var void while with null true false thisWorld class enum a b c f x print 0 1 7 0x1F 9007199254740991 9007199254740992 1.5 01 '
          '"" "a" \'b\' "\\n" "\\u0041" "\\8" "\\ /* */ // <!-- # @ \\u0061 \u00e9 \u2028 \U0001f600').split(' ')
OPENERS = ('(', '[', '{', 'x={a:', 'f(', 'a[', 'function f(){', '(function(){', 'switch(a){case 1:', 'new ', 'if(a)', 'a?', 'a?b:', '- ', '!',
           'for(;;)', 'while(a)', 'do ', 'try{', 'in w{', 'a:', 'if(a);else ', 'a+', 'a=', 'a,', 'a.b', 'a in ', 'var a=', '/*', '"a\\\n', '//\n')

GUARDED = 'try {{ {}\n;}} catch (e) {{ print(e); }}'
FORMS = ('{}\n;', '{{ {}\n;}}', 'in thisWorld.sprout() {{ {}\n;}}', '(function () {{ {}\n;}})();', GUARDED, GUARDED, GUARDED)


def scripts_of_tables():
    for path in sorted(glob.glob(os.path.join(TOP, 'tests', '*.jsonl'))):
        with open(path, encoding='utf-8') as table:
            for row in map(json.loads, table):
                script = row.get('stdin', '')
                # not those of nearly the greatest height, nor those with what may stand at the beginning alone
                is_high = 'height' in row['id'] or '((((' in script
                if row.get('status') in (0, 1, 2) and 'gen' not in row['words'] and len(script) < 4000 and not is_high and '\ufeff' not in script:
                    yield script


def swapped(draw, text):
    """Some of the words, numbers and signs of the text are others of their kind, so that most often it stays a script."""
    found = collections.defaultdict(list)
    for held in KINDS.finditer(text):
        found[held.lastgroup].append(held)
    some = [held for held in sum(found.values(), []) if draw.random() < draw.choice((0.001, 0.01, 0.1))]
    at, pieces = 0, []
    for held in sorted(some, key=lambda held: held.start()):
        pieces += [text[at:held.start()], draw.choice(found[held.lastgroup])[0]]
        at = held.end()
    return ''.join(pieces) + text[at:]


def mutated(draw, data):
    for _ in range(draw.choice((1, 3, 30, 300))):
        at, size = draw.randrange(len(data) + 1), int(2 ** draw.uniform(0, 10))
        kind = draw.randrange(6)
        if kind == 0:
            data[at:at] = draw.choice(TOKENS).encode()
        elif kind == 1:
            del data[at:at + size]
        elif kind == 2:
            data[at:at] = data[at:at + size] * draw.choice((1, 1, 40))
        elif kind == 3:
            piece = data[at:at + size]
            del data[at:at + size]
            to = draw.randrange(len(data) + 1)
            data[to:to] = piece
        elif kind == 4:
            data[at:at] = draw.choice(OPENERS).encode() * size
        elif data:
            data[at % len(data)] = draw.randrange(256)
    return data


def joined(draw, size, make):
    pieces, length = [], 0
    while length < size:
        pieces.append(make())
        length += len(pieces[-1]) + 1
    return draw.choice((' ', '\n', '')).join(pieces).encode('utf-8', 'surrogatepass')


def drawn(draw, scripts):
    size = int(2 ** draw.uniform(10, 20))
    kind = draw.choice(('bytes', 'characters', 'tokens', 'open', 'scripts', 'mutated', 'mutated', 'swapped', 'swapped', 'swapped'))
    if kind == 'bytes':
        return kind, draw.randbytes(size)
    if kind == 'characters':
        return kind, joined(draw, size, lambda: chr(draw.choice((draw.randrange(128), draw.randrange(0x3000), draw.randrange(0x110000)))))
    if kind == 'tokens':
        return kind, joined(draw, size, lambda: draw.choice(TOKENS))
    if kind == 'open':
        some = draw.sample(OPENERS, draw.randint(1, 4))
        return kind, joined(draw, size, lambda: draw.choice(some))
    form = draw.choice(FORMS)
    plain = [script for script in scripts if form == FORMS[0] or 'function ' not in script]
    whole = joined(draw, size, lambda: form.format(draw.choice(plain)))
    if kind == 'swapped':
        return kind, swapped(draw, whole.decode()).encode()
    return kind, whole if kind == 'scripts' else bytes(mutated(draw, bytearray(whole[:draw.choice((size, len(whole)))])))


def ended(command, words, data):
    """The output, error, status and processor time of a run; None in place of the status where it has no end."""
    before = resource.getrusage(resource.RUSAGE_CHILDREN)
    try:
        done = subprocess.run(command + words, input=data, capture_output=True, timeout=SECONDS,
                              preexec_fn=lambda: resource.setrlimit(resource.RLIMIT_AS, (MEMORY, MEMORY)))
    except subprocess.TimeoutExpired:
        return b'', b'', None, SECONDS
    after = resource.getrusage(resource.RUSAGE_CHILDREN)
    return done.stdout, done.stderr, done.returncode, after.ru_utime + after.ru_stime - before.ru_utime - before.ru_stime


def is_utf8(data):
    try:
        data.decode()
        return True
    except UnicodeDecodeError:
        return False


def fault(data, checked, run):
    """What is wrong with the two endings, None where nothing is."""
    for out, err, status, seconds in (checked, run):
        if status not in LINES or not re.fullmatch(LINES[status], err, re.DOTALL):
            return f'status {status} with {err[:200]}'
        if seconds > 2 + 4 * len(data) / 1e6:
            return f'{seconds:.1f} seconds'
        if (err == b'not UTF-8\n') == is_utf8(data):
            return f'{err[:200]}, and to Python UTF-8 is {is_utf8(data)}'
        if status == 4 and out:
            return 'refused, with output'
    if checked[2] not in (0, 3, 4) or checked[2] == 0 and checked[0] != b'ok\n':
        return f'checked with status {checked[2]} and {checked[0][:200]}'
    if 3 not in (checked[2], run[2]) and (checked[1:3] if checked[2] == 4 else None) != (run[1:3] if run[2] == 4 else None):
        return f'checked with {checked[1]}, run with {run[1]}'
    return None


def main(words):
    command = words[words.index('--') + 1:] if '--' in words else [os.path.join(TOP, 'crates', 'worlds', 'out', 'worlds')]
    words = words[:words.index('--')] if '--' in words else words
    if len(words) != 2:
        sys.exit(__doc__)
    first, count = map(int, words)
    scripts, counts, wrong, slowest = list(scripts_of_tables()), collections.Counter(), 0, (0, None)
    folder = tempfile.mkdtemp()
    for seed in range(first, first + count):
        draw = random.Random(seed)
        kind, data = drawn(draw, scripts)
        checked = ended(command, ['--mode', 'check'], data)
        run = ended(command, ['--steps', '100000', '--mode', draw.choice(('run', 'tree'))], data)
        counts[kind, run[2]] += 1
        slowest = max(slowest, (run[3], seed), (checked[3], seed))
        why = fault(data, checked, run)
        if why:
            wrong += 1
            with open(os.path.join(folder, f'{seed}.js'), 'wb') as it:
                it.write(data)
            print(f'seed {seed}, {kind}, {len(data)} bytes: {why}', flush=True)
    print(', '.join(f'{kind} {status}: {n}' for (kind, status), n in sorted(counts.items(), key=str)))
    print(f'{count} seeds, {wrong} wrong, slowest {slowest[0]:.2f} s (seed {slowest[1]})' + (f'; kept in {folder}' if wrong else ''))
    return 1 if wrong else 0


if __name__ == '__main__':
    sys.exit(main(sys.argv[1:]))
