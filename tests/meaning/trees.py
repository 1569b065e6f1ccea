"""Reads a script and gives its tree as a list of numbered nodes in antt, with the places of its names.

A second reader of the language, written from its grammar alone, so that the definitions of the meaning are tested on trees that the
program's own parser did not make. It takes scripts that are well formed; what it makes of others is not promised.
"""
import re
import sys

sys.setrecursionlimit(20000)

KEYS = set('''break case catch continue default delete do else finally for function if in instanceof new return switch this throw try
typeof var void while with abstract boolean byte char class const debugger double enum export extends final float goto implements
import int interface long native package private protected public short static super synchronized throws transient volatile null true
false thisWorld'''.split())
SIGNS = '''>>>= === !== <<= >>= >>> <= >= == != ++ -- << >> && || += -= *= /= %= &= |= ^= { } ( ) [ ] . ; , < > + - * / % & | ^ ! ~ ? : ='''.split()
BLANK, LINE_END = '\t\v\f \xa0\u1680\u202f\u205f\u3000' + ''.join(map(chr, range(0x2000, 0x200b))), '\n\r\u2028\u2029'
LEVELS = {'*': 12, '/': 12, '%': 12, '+': 11, '-': 11, '<<': 10, '>>': 10, '>>>': 10, '<': 9, '>': 9, '<=': 9, '>=': 9, 'instanceof': 9,
          'in': 9, '==': 8, '!=': 8, '===': 8, '!==': 8, '&': 7, '^': 6, '|': 5, '&&': 4, '||': 3}
BINARY = {'*': 'Multiply', '/': 'Divide', '%': 'Remainder', '+': 'Add', '-': 'Subtract', '<<': 'ShiftLeft', '>>': 'ShiftRight',
          '>>>': 'ShiftRightUnsigned', '<': 'Less', '>': 'Greater', '<=': 'LessEqual', '>=': 'GreaterEqual', 'instanceof': 'Instanceof',
          'in': 'In', '==': 'Equal', '!=': 'NotEqual', '===': 'StrictEqual', '!==': 'StrictNotEqual', '&': 'BitAnd', '^': 'BitXor',
          '|': 'BitOr', '&&': 'And', '||': 'Or'}
ASSIGN = {'=': 'Plain', **{s + '=': BINARY[s] for s in '* / % + - << >> >>> & ^ |'.split()}}
PREFIX = {'delete': 'Delete', 'void': 'Void', 'typeof': 'Typeof', '++': 'Increment', '--': 'Decrement', '+': 'Plus', '-': 'Minus',
          '~': 'BitNot', '!': 'Not'}
ESCAPES = {'b': 8, 't': 9, 'n': 10, 'v': 11, 'f': 12, 'r': 13, '0': 0}


def units(text):
    data = text.encode('utf-16-be', 'surrogatepass')
    return [data[i] * 256 + data[i + 1] for i in range(0, len(data), 2)]


def tokens(text):
    """(kind, value, whether a line end stands before it)"""
    text, at, fresh, found = text.removeprefix('\ufeff'), 0, False, []
    while at < len(text):
        c = text[at]
        if c in BLANK or c in LINE_END:
            fresh, at = fresh or c in LINE_END, at + 1
        elif text.startswith('//', at):
            while at < len(text) and text[at] not in LINE_END:
                at += 1
        elif text.startswith('/*', at):
            end = text.index('*/', at) + 2
            fresh, at = fresh or any(e in text[at:end] for e in LINE_END), end
        else:
            kind, value, at = token_at(text, at)
            found.append((kind, value, fresh))
            fresh = False
    return found + [('end', '', True)]


def token_at(text, at):
    number = re.compile(r'0[xX][0-9a-fA-F]+|[0-9]+').match(text, at)
    if number:
        return 'number', int(number[0], 0), number.end()
    if text[at] in '\'"':
        return string_at(text, at)
    word = re.compile(r'[\w$]+').match(text, at)
    if word:
        return ('key' if word[0] in KEYS else 'word'), word[0], word.end()
    sign = next(s for s in SIGNS if text.startswith(s, at))
    return 'sign', sign, at + len(sign)


def string_at(text, start):
    at, found = start + 1, []
    while text[at] != text[start]:
        if text[at] != '\\':
            found += units(text[at])
            at += 1
            continue
        c = text[at + 1]
        at += 2
        if c in 'xu':
            width = 2 if c == 'x' else 4
            found.append(int(text[at:at + width], 16))
            at += width
        elif c in LINE_END:
            at += text.startswith('\r\n', at - 1)
        else:
            found.append(ESCAPES.get(c, ord(c)))
    return 'text', found, at + 1


class Reader:
    """Forms are tuples: the name of the form, and its parts."""

    def __init__(self, text):
        self.toks, self.at = tokens(text), 0

    def here(self, *values):
        kind, value, _ = self.toks[self.at]
        return kind in ('key', 'sign') and value in values

    def take(self, *values):
        if not self.here(*values):
            return None
        self.at += 1
        return self.toks[self.at - 1][1]

    def need(self, value):
        assert self.take(value), (value, self.toks[self.at])

    def word(self):
        kind, value, _ = self.toks[self.at]
        assert kind == 'word', self.toks[self.at]
        self.at += 1
        return units(value)

    def fresh(self):
        return self.toks[self.at][2]

    def end(self):
        if not self.take(';'):
            assert self.fresh() or self.here('}'), self.toks[self.at]

    # ---- expressions

    def expression(self, no_in=False):
        left = self.assignment(no_in)
        while self.take(','):
            left = ('Comma', left, self.assignment(no_in))
        return left

    def assignment(self, no_in=False):
        left = self.condition(no_in)
        sign = self.take(*ASSIGN)
        return ('Assign', left, ASSIGN[sign], self.assignment(no_in)) if sign else left

    def condition(self, no_in):
        test = self.binary(3, no_in)
        if not self.take('?'):
            return test
        first = self.assignment()
        self.need(':')
        return ('Cond', test, first, self.assignment(no_in))

    def binary(self, level, no_in):
        left = self.unary()
        while True:
            sign = self.toks[self.at][1]
            if self.toks[self.at][0] not in ('key', 'sign') or LEVELS.get(sign, 0) < level or (sign == 'in' and no_in):
                return left
            self.at += 1
            left = ('Binary', left, BINARY[sign], self.binary(LEVELS[sign] + 1, no_in))

    def unary(self):
        sign = self.take(*PREFIX)
        if sign:
            return ('Prefix', PREFIX[sign], self.unary())
        operand = self.calls(self.member())
        if not self.fresh() and self.here('++', '--'):
            return ('Postfix', operand, PREFIX[self.take('++', '--')])
        return operand

    def arguments(self):
        self.need('(')
        found = []
        while not self.take(')'):
            found.append(self.assignment())
            if not self.here(')'):
                self.need(',')
        return found

    def selected(self, base):
        if self.take('.'):
            name = units(self.toks[self.at][1])
            self.at += 1
            return ('Dot', base, name)
        self.need('[')
        index = self.expression()
        self.need(']')
        return ('At', base, index)

    def member(self):
        if self.take('new'):
            callee = self.member()
            base = ('NewWith', callee, self.arguments()) if self.here('(') else ('NewBare', callee)
            if base[0] == 'NewBare':
                return base
        else:
            base = self.primary()
        while self.here('.', '['):
            base = self.selected(base)
        return base

    def calls(self, base):
        while self.here('(', '.', '['):
            base = ('Call', base, self.arguments()) if self.here('(') else self.selected(base)
        return base

    def primary(self):
        kind, value, _ = self.toks[self.at]
        if kind == 'key' and value == 'function':
            return self.function()
        self.at += 1
        if kind == 'word':
            return ('Name', units(value))
        if kind == 'number':
            return ('NumberLit', value)
        if kind == 'text':
            return ('TextLit', value)
        if value == '(':
            inner = self.expression()
            self.need(')')
            return ('Paren', inner)
        if value == '[':
            return self.array()
        if value == '{':
            return self.object()
        return {'this': ('This',), 'thisWorld': ('ThisWorld',), 'null': ('NullLit',), 'true': ('BoolLit', True), 'false': ('BoolLit', False)}[value]

    def array(self):
        items = []
        while not self.take(']'):
            if self.take(','):
                items.append(None)
                continue
            items.append(self.assignment())
            if not self.here(']'):
                self.need(',')
        return ('ArrayLit', items)

    def object(self):
        pairs = []
        while not self.take('}'):
            kind, value, _ = self.toks[self.at]
            self.at += 1
            self.need(':')
            key = value if kind in ('number', 'text') else units(value)
            pairs.append((key, self.assignment()))
            if not self.here('}'):
                self.need(',')
        return ('ObjectLit', pairs)

    def function(self, declared=False):
        self.need('function')
        name = self.word() if declared or self.toks[self.at][0] == 'word' else None
        self.need('(')
        formals = []
        while not self.take(')'):
            formals.append(self.word())
            if not self.here(')'):
                self.need(',')
        self.need('{')
        elements = self.elements()
        self.need('}')
        return ('FunctionDecl' if declared else 'Function', name, formals, elements)

    # ---- statements

    def elements(self):
        found = []
        while not self.here('}') and self.toks[self.at][0] != 'end':
            found.append(self.function(True) if self.here('function') else self.statement())
        return found

    def statements(self):
        found = []
        while not self.here('}', 'case', 'default'):
            found.append(self.statement())
        return found

    def block(self):
        self.need('{')
        inner = self.statements()
        self.need('}')
        return ('Block', inner)

    def variables(self, no_in=False):
        found = []
        while True:
            name = self.word()
            found.append((name, self.assignment(no_in) if self.take('=') else None))
            if not self.take(','):
                return found

    def tested(self):
        self.need('(')
        test = self.expression()
        self.need(')')
        return test

    def statement(self):
        kind, value, _ = self.toks[self.at]
        if kind == 'key' and hasattr(self, 'on_' + value):
            self.at += 1
            return getattr(self, 'on_' + value)()
        if self.here('{'):
            return self.block()
        if self.take(';'):
            return ('Empty',)
        if kind == 'word' and self.toks[self.at + 1][:2] == ('sign', ':'):
            self.at += 2
            return ('Label', units(value), self.statement())
        inner = self.expression()
        self.end()
        return ('Expr', inner)

    def on_var(self):
        found = self.variables()
        self.end()
        return ('Var', found)

    def on_if(self):
        test, first = self.tested(), self.statement()
        return ('If', test, first, self.statement() if self.take('else') else None)

    def on_do(self):
        body = self.statement()
        self.need('while')
        test = self.tested()
        self.end()
        return ('DoWhile', body, test)

    def on_while(self):
        test = self.tested()
        return ('While', test, self.statement())

    def on_for(self):
        self.need('(')
        if self.take('var'):
            init = ('InitVar', self.variables(True))
            if self.take('in'):
                return ('ForVarIn', init[1][0][0], self.each(), self.statement())
        elif self.here(';'):
            init = ('NoInit',)
        else:
            init = ('InitExpr', self.expression(True))
            if self.take('in'):
                return ('ForIn', init[1], self.each(), self.statement())
        self.need(';')
        test = None if self.here(';') else self.expression()
        self.need(';')
        update = None if self.here(')') else self.expression()
        self.need(')')
        return ('For', init, test, update, self.statement())

    def each(self):
        inner = self.expression()
        self.need(')')
        return inner

    def label(self):
        found = None if self.fresh() or self.toks[self.at][0] != 'word' else self.word()
        self.end()
        return found

    def on_continue(self):
        return ('Continue', self.label())

    def on_break(self):
        return ('Break', self.label())

    def on_return(self):
        value = None if self.fresh() or self.here(';', '}') else self.expression()
        self.end()
        return ('Return', value)

    def on_throw(self):
        value = self.expression()
        self.end()
        return ('Throw', value)

    def on_switch(self):
        value, clauses = self.tested(), []
        self.need('{')
        while not self.take('}'):
            test = None if self.take('default') else (self.need('case'), self.expression())[1]
            self.need(':')
            clauses.append((test, self.statements()))
        return ('Switch', value, clauses)

    def on_try(self):
        block, handler = self.block(), None
        if self.take('catch'):
            self.need('(')
            name = self.word()
            self.need(')')
            handler = (name, self.block())
        return ('Try', block, handler, self.block() if self.take('finally') else None)

    def on_in(self):
        world = self.expression()
        return ('Within', world, self.block())


# ---- numbers, and the places of names


def vars_of(form):
    """The names of the `var`s of a statement, those of inner functions left out."""
    if isinstance(form, list):
        return [name for part in form for name in vars_of(part)]
    if not isinstance(form, tuple) or not form or form[0] in ('Function', 'FunctionDecl'):
        return []
    if form[0] in ('Var', 'InitVar'):
        return [bytes_of(name) for name, _ in form[1]]
    names = [bytes_of(form[1])] if form[0] == 'ForVarIn' else []
    return names + [name for part in form if isinstance(part, (tuple, list)) and part and not isinstance(part[0], int) for name in vars_of(part)]


def bytes_of(name):
    return tuple(name)


def text(us):
    if us and all(32 <= u < 127 and chr(u) not in '"\\' for u in us):
        return f'(codes "{"".join(map(chr, us))}")'
    return spelled_list(us)


def spelled_list(items):
    return '(' + ''.join(f'{x} ∷ ' for x in items) + '[])'


def option(x):
    return 'None' if x is None else f'(Some {x})'


def names_of(form):
    """The names of a node itself, in order: a Name's, or those that it declares by `var`."""
    if form[0] in ('Name', 'ForVarIn'):
        return [form[1]]
    pairs = form[1] if form[0] == 'Var' else form[1][1] if form[0] == 'For' and form[1][0] == 'InitVar' else []
    return [name for name, _ in pairs]


class Numbering:
    """Nodes, each before its parts, in the order in which these are spelled. The first of so many has the greatest number, and from
    there the numbers fall by one."""

    def __init__(self, count):
        self.count, self.lines, self.rows = count, [], []

    def resolve(self, name, scopes):
        for hops, scope in enumerate(scopes):
            if bytes_of(name) in scope:
                return f'Local {hops}'
        return 'Global'

    def all(self, forms, scopes):
        return spelled_list([self.node(f, scopes) for f in forms])

    def maybe(self, form, scopes):
        return option(None if form is None else self.node(form, scopes))

    def declarators(self, pairs, scopes):
        return spelled_list([f'({text(n)}, {self.maybe(e, scopes)})' for n, e in pairs])

    def node(self, form, scopes):
        place = len(self.lines)
        self.lines.append(None)
        self.rows.append(spelled_list([self.resolve(name, scopes) for name in names_of(form)]))
        self.lines[place] = getattr(self, 'of_' + form[0], self.plain)(form, scopes)
        return self.count - 1 - place

    def plain(self, form, scopes):
        kind, parts = form[0], []
        for p in form[1:]:
            if isinstance(p, str):
                parts.append({'Postfix': 'update.', 'Prefix': 'prefix.', 'Binary': 'binary.', 'Assign': 'assign.'}[kind] + p)
            elif isinstance(p, tuple):
                parts.append(str(self.node(p, scopes)))
            else:
                parts.append(self.all(p, scopes))
        return ' '.join([kind] + parts)

    def of_Name(self, form, scopes):
        return f'Name {text(form[1])}'

    def of_NumberLit(self, form, scopes):
        return f'NumberLit (Some (pos {form[1]}))'

    def of_TextLit(self, form, scopes):
        return f'TextLit {text(form[1])}'

    def of_BoolLit(self, form, scopes):
        return f'BoolLit {"true" if form[1] else "false"}'

    def of_ArrayLit(self, form, scopes):
        return f'ArrayLit {spelled_list([self.maybe(e, scopes) for e in form[1]])}'

    def of_ObjectLit(self, form, scopes):
        pairs = [(f'Numeral (Some (pos {k}))' if isinstance(k, int) else f'Spelled {text(k)}', self.node(e, scopes)) for k, e in form[1]]
        return f'ObjectLit {spelled_list([f"({k}, {e})" for k, e in pairs])}'

    def of_Function(self, form, scopes):
        name, formals, elements = form[1:]
        own = {bytes_of(units('arguments'))} | set(map(bytes_of, formals)) | set(vars_of(elements))
        own |= {bytes_of(e[1]) for e in elements if e[0] == 'FunctionDecl'}
        named = [{bytes_of(name)}] if form[0] == 'Function' and name is not None else []
        inner = self.all(elements, [own] + named + scopes)
        spelled = option(None if name is None else text(name)) if form[0] == 'Function' else text(name)
        return f'{form[0]} {spelled} {spelled_list(map(text, formals))} {inner}'

    of_FunctionDecl = of_Function

    def of_Dot(self, form, scopes):
        return f'Dot {self.node(form[1], scopes)} {text(form[2])}'

    def of_Var(self, form, scopes):
        return f'Var {self.declarators(form[1], scopes)}'

    def of_If(self, form, scopes):
        return f'If {self.node(form[1], scopes)} {self.node(form[2], scopes)} {self.maybe(form[3], scopes)}'

    def of_For(self, form, scopes):
        init = form[1]
        parts = {'NoInit': lambda: 'NoInit', 'InitExpr': lambda: f'(InitExpr {self.node(init[1], scopes)})',
                 'InitVar': lambda: f'(InitVar {self.declarators(init[1], scopes)})'}[init[0]]()
        return f'For {parts} {self.maybe(form[2], scopes)} {self.maybe(form[3], scopes)} {self.node(form[4], scopes)}'

    def of_ForVarIn(self, form, scopes):
        return f'ForVarIn {text(form[1])} {self.node(form[2], scopes)} {self.node(form[3], scopes)}'

    def of_Continue(self, form, scopes):
        return f'{form[0]} {option(None if form[1] is None else text(form[1]))}'

    of_Break = of_Continue

    def of_Return(self, form, scopes):
        return f'Return {self.maybe(form[1], scopes)}'

    def of_Label(self, form, scopes):
        return f'Label {text(form[1])} {self.node(form[2], scopes)}'

    def of_Switch(self, form, scopes):
        value = self.node(form[1], scopes)
        clauses = [f'({self.maybe(t, scopes)}, {self.all(ss, scopes)})' for t, ss in form[2]]
        return f'Switch {value} {spelled_list(clauses)}'

    def of_Try(self, form, scopes):
        block, handler = self.node(form[1], scopes), None
        if form[2]:
            handler = f'({text(form[2][0])}, {self.node(form[2][1], [{bytes_of(form[2][0])}] + scopes)})'
        return f'Try {block} {option(handler)} {self.maybe(form[3], scopes)}'


def numbered(program):
    """The nodes of a program and, for each, the places of its names, by number."""
    counted = Numbering(0)
    counted.node(program, [])
    numbers = Numbering(len(counted.lines))
    numbers.node(program, [])
    return numbers.lines[::-1], numbers.rows[::-1]


def tree(name, script):
    """The definitions of the script's tree in antt."""
    reader = Reader(script)
    elements = reader.elements()
    assert reader.toks[reader.at][0] == 'end', reader.toks[reader.at]
    nodes, rows = numbered(('Program', elements))
    lines = [f'abbrev pub tree_{name} : Tree', f'tree_{name} = record {{', f'  body = {len(nodes) - 1};', '  nodes =']
    lines += [f'    {line} ∷' for line in nodes] + ['    [];', '  places =']
    lines += [f'    {row} ∷' for row in rows] + ['    [];']
    return '\n'.join(lines + ['}', ''])
