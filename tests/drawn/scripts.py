"""Draws scripts from grammars whose words are templates.

In a template `@word` stands for one of that word's own templates, or for what the method of that name draws, `#` for a number that is
new in the script, and a template that begins with `L#: ` or `B#: ` labels a loop or a block for what is drawn within it.

The scripts keep to what the 3rd edition, its successors and this language have in common: whole numbers that stay small (a chain of
additions may leave the range), no property of a text but its length, no enumeration of texts, visits in one order only, no
elements of `arguments`, no assignment to a member of what is no object. They end by themselves: loops count, and calls burn `fuel`.
"""
import os
import random
import re

HERE = os.path.dirname(os.path.abspath(__file__))


def read(name):
    with open(os.path.join(HERE, name), encoding='utf-8') as it:
        return it.read()


def grammar_of(name):
    """The templates of each word: `word = template template ..`, or a line for the word, and below it one for each template, which
    `3x ` before it makes as likely as three; `nothing` is an empty one."""
    words = {}
    for line in read(f'{name}.txt').split('\n'):
        if not line or line[0] == '#':
            continue
        if ' = ' in line and line[0] != ' ':
            word, templates = line.split(' = ')
            words[word] = templates.split(' ')
        elif line[0] != ' ':
            templates = words[line] = []
        else:
            times, template = re.fullmatch(r'  (?:(\d+)x )?(.*)', line).groups()
            templates += ['' if template == 'nothing' else template] * int(times or 1)
    return words


# What the scripts of a grammar begin with, and its words.
GRAMMARS = {name: (read('show.js') + read(f'{name}.js'), grammar_of(name)) for name in ('values', 'names')}

# What most plays begin with, and the words of their parts (plays.py).
PARTS = read('parts.js'), grammar_of('parts')

# How a statement is run in a world that is committed right after it, also where it throws or jumps: in that world itself, in a child of
# it that is committed first, and in it after a child has been dropped that had changed much. A script prints what it would without.
IN_WORLDS = [
    '{ var w# = thisWorld.@sprout(); try { in w# { @it } } finally { w#.commit(); } }',
    '{ var w# = thisWorld.sprout(); try { in w# { var v# = thisWorld.@sprout(); try { in v# { @it } } finally { v#.commit(); } } }'
    ' finally { w#.commit(); } }',
    '{ var w# = thisWorld.@sprout(); in w# { var v# = thisWorld.sprout();'
    ' try { in v# { fuel = 0; lines = 900; delete o.p; o = {}; get = null; throw 1; } } catch (e#) { } }'
    ' try { in w# { @it } } finally { w#.commit(); } }',
]

# How deep expressions and statements may be within ones of their kind, and which words stand for them there.
DEEPEST = {'e': 3, 'st': 2}
SHALLOW = {'e': 'leaf', 'st': 'last_st'}


class Drawer:
    """Draws one script. `share` of its statements run in worlds; that changes nothing else of the script."""

    def __init__(self, grammar, seed, share=0):
        self.head, self.words = PARTS if grammar == 'parts' else GRAMMARS[grammar]
        self.draws = random.Random(f'{grammar} {seed}')
        self.world_draws = random.Random(f'worlds {seed}')
        self.share = share
        self.depths = dict.fromkeys(DEEPEST, 0)
        self.number = self.functions = self.loops = 0
        self.labels = []

    def fill(self, template):
        if '#' in template:
            self.number += 1
            template = template.replace('#', str(self.number))
        label = re.match(r'([LB]\d+): ', template)
        if label:
            self.labels.append(label[1])
        filled = re.sub(r'@(\w+)', lambda it: self.draw(it[1]), template)
        if label:
            self.labels.pop()
        return filled

    def draw(self, word):
        if word[0].isupper():
            return getattr(self, word.lower())()
        if word not in DEEPEST:
            return self.fill(self.draws.choice(self.words[word]))
        self.depths[word] += 1
        filled = self.fill(self.draws.choice(self.words[word if self.depths[word] <= DEEPEST[word] else SHALLOW[word]]))
        self.depths[word] -= 1
        return self.in_worlds(filled) if word == 'st' else filled

    def in_worlds(self, statement):
        if self.share == 0 or self.world_draws.random() >= self.share:
            return statement
        self.number += 1
        around = self.world_draws.choice(IN_WORLDS).replace('#', f'_{self.number}')
        around = around.replace('@sprout', self.world_draws.choice(['sprout', 'sprout', 'sproutStrict']))
        return around.replace('@it', statement)

    def loop(self):
        self.loops += 1
        filled = self.draw('some')
        self.loops -= 1
        return filled

    def function(self):
        outside, self.loops, self.labels = (self.loops, self.labels), 0, []
        self.functions += 1
        inner = 'function inner(a) { @some @Result }' if self.draws.random() < 0.2 else ''
        filled = self.fill('if (fuel-- < 0) return 1; ' + inner + ' @some @some @Result')
        self.functions -= 1
        self.loops, self.labels = outside
        return filled

    def jump(self):
        return self.fill(self.draws.choice(['if (@leaf) break;', 'if (@leaf) continue;', 'break;'])) if self.loops else ''

    def out(self):
        if not self.labels:
            return ''
        label = self.draws.choice(self.labels)
        jump = self.draws.choice(['break', 'continue']) if label[0] == 'L' else 'break'
        return self.fill(f'if (@leaf) {jump} {label};')

    def result(self):
        return self.fill('return @e;') if self.functions else ''

    def body(self):
        """The functions and the statements, each of these caught."""
        functions = self.draw('functions')
        statements = [self.draw('st') for _ in range(6 + self.draws.randrange(8))]
        return functions, '\n'.join('try { %s } catch (thrown) { log(thrown); }' % it for it in statements) + '\n' + self.draw('end')


def script(grammar, seed, share=0, dropped_first=False):
    """A script; with dropped_first its statements run in a world that is dropped, and then once more."""
    drawer = Drawer(grammar, seed, share)
    functions, statements = drawer.body()
    if dropped_first:
        statements = f'var first = thisWorld.sprout();\nin first {{\n{statements}\n}}\n{statements}'
    return f'{drawer.head}{functions}\n{statements}\n'


TOKEN = re.compile(r'"(?:[^"\\]|\\.)*"|[A-Za-z_$][\w$]*|\d+|>>>=|===|!==|>>>|<<=|>>=|[-+*%&|^=!<>]=|&&|\|\||\+\+|--|<<|>>|\S')
# no `in`, which begins a statement only here
TOKENS = ('if else for while do var function return break continue case default switch try catch finally throw new typeof delete void '
          'this instanceof f a 1 "s" ( ) { } [ ] ; ; , . ++ -- + - = += ? : == < && ! ~ % L1').split()


def respaced(text, draws):
    """Its tokens with some semicolons left out or made line ends, and some line ends between."""
    bare, ends = draws.choice([0, 0.3, 1]), draws.choice([0, 0.05, 0.3])
    filled = ''
    for token in TOKEN.findall(text):
        if token == ';' and draws.random() < bare:
            token = draws.choice(['\n', '\n', '', ';\n'])
        filled += token + ('\n' if draws.random() < ends else ' ')
    return filled


def mutated(grammar, seed):
    """A few statements in which one or two tokens are left out, put in, replaced or swapped, spaced anew."""
    drawer = Drawer(grammar, seed)
    drawer.depths['e'] = 1
    draws = random.Random(f'tokens {seed}')
    tokens = TOKEN.findall(' '.join(drawer.draw('st') for _ in range(1 + draws.randrange(3))))
    for _ in range(draws.randrange(3)):
        at = draws.randrange(len(tokens) + 1)
        kind = draws.randrange(4)
        if kind == 0:
            del tokens[at:at + 1]
        elif kind == 1:
            tokens.insert(at, draws.choice(TOKENS))
        elif kind == 2:
            tokens[at:at + 1] = [draws.choice(TOKENS)]
        else:
            tokens[at:at + 2] = reversed(tokens[at:at + 2])
    return respaced(' '.join(tokens), draws)
