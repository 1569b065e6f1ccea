#!/usr/bin/env python3
"""How much stack the program takes for scripts of the greatest height, in KB, form by form.

usage: tests/hostile/stack.py [FORM..] [-- COMMAND..]     no FORM: all

Of each form the deepest script that is read is found first. Then it is checked and run with less and less stack, and a script of the form
that is far too deep is refused with less and less: a line has the least of each with which the answer is the one that comes with ample
stack. Without a COMMAND the program is what ./worlds runs.
"""
import os
import resource
import subprocess
import sys

TOP = os.path.dirname(os.path.dirname(os.path.dirname(os.path.abspath(__file__))))
AMPLE, LEAST, STEP, FAR = 8192, 12, 4, 20000
# what stands before, what opens, what stands within, what closes, what stands behind; `#` is the number of the time
FORMS = {
    'parentheses': ('print(', '(', '7', ')', ');'),
    'arrays': ('x = ', '[', '7', ']', ';'),
    'objects': ('x = ', '{a:', '7', '}', ';'),
    'calls': ('function f(x) { return x; } f(', 'f(', '7', ')', ');'),
    'second arguments': ('function f(x) { return x; } f(', 'f(1,', '7', ')', ');'),
    'indices': ('var a = [0]; x = ', 'a[', '0', ']', ';'),
    'updated indices': ('var a = [0]; x = ', '++a[', '0', ']', ';'),
    'new in parentheses': ('function F() { } x = ', 'new (', 'F', ')', ';'),
    'new with arguments': ('function F() { return F; } x = ', 'new F(', '7', ')', ';'),
    'new of new': ('function F() { return F; } x = ', 'new ', 'F', '()', ';'),
    'prefixes': ('x = ', '- ', '7', '', ';'),
    'conditions': ('x = ', '1 ? ', '7', ' : 0', ';'),
    'conditions behind colons': ('x = ', '0 ? 1 : ', '7', '', ';'),
    'assignments': ('', 'x = ', '7', '', ';'),
    'sums to the right': ('x = ', '1 + (', '7', ')', ';'),
    'operators of all levels': ('x = ', '1 || 1 && 1 | 1 ^ 1 & 1 == 1 < 1 << 1 + 1 * (', '7', ')', ';'),
    'commas': ('x = ', '(1, ', '7', ')', ';'),
    'function expressions': ('x = ', '(function () { return ', '7', '; })()', ';'),
    'function declarations': ('', 'function f() {', '', '}', ''),
    'blocks': ('', '{', ';', '}', ''),
    'ifs': ('', 'if (1) ', ';', '', ''),
    'elses': ('', 'if (1) {', ';', '} else ;', ''),
    'for': ('', 'for (; 0;) ', ';', '', ''),
    'for with variables': ('', 'for (var i = 0; i < 0; i++) ', ';', '', ''),
    'for with a value': ('', 'for (i = 0; i < 0; i++) ', ';', '', ''),
    'for in': ('', 'for (i in {}) ', ';', '', ''),
    'for var in': ('', 'for (var i in {}) ', ';', '', ''),
    'while': ('', 'while (0) ', ';', '', ''),
    'do': ('', 'do ', ';', ' while (0);', ''),
    'switches': ('', 'switch (1) { case 1: ', ';', '}', ''),
    'try': ('', 'try {', ';', '} finally { }', ''),
    'catch': ('', 'try { throw 1; } catch (e) {', ';', '}', ''),
    'catch and finally': ('', 'try { throw 1; } catch (e) {', ';', '} finally { }', ''),
    'finally': ('', 'try { } finally {', ';', '}', ''),
    'in': ('', 'in thisWorld {', ';', '}', ''),
    'labels': ('', 'a#: ', ';', '', ''),
    'labelled loops': ('', 'a#: while (0) ', ';', '', ''),
}


def script(form, depth):
    before, opening, within, closing, behind = FORMS[form]
    return before + ''.join(opening.replace('#', str(i)) for i in range(depth)) + within + closing * depth + behind


def ended(command, text, stack, words=()):
    limit = lambda: resource.setrlimit(resource.RLIMIT_STACK, (stack << 10, stack << 10))
    done = subprocess.run([*command, *words], input=text.encode(), capture_output=True, preexec_fn=limit)
    return done.stdout, done.stderr, done.returncode


def is_read(command, text):
    return ended(command, text, AMPLE, ['--mode', 'check'])[2] == 0


def deepest(command, form):
    low, high = 0, 256
    while low + 1 < high:
        middle = (low + high) // 2
        low, high = (middle, high) if is_read(command, script(form, middle)) else (low, middle)
    return low


def least_stack(command, text, words=()):
    due = ended(command, text, AMPLE, words)
    low, high = LEAST, 2048
    while low + STEP < high:
        middle = (low + high) // (2 * STEP) * STEP
        low, high = (low, middle) if ended(command, text, middle, words) == due else (middle, high)
    return high


def main(words):
    command = []
    if '--' in words:
        command = words[words.index('--') + 1:]
        words = words[:words.index('--')]
    if any(form not in FORMS for form in words):
        sys.exit(__doc__)
    command = command or [os.path.join(TOP, 'crates', 'worlds', 'out', 'worlds')]
    for form in words or FORMS:
        depth = deepest(command, form)
        text = script(form, depth)
        print(f'{form:26} depth {depth:3}  checked {least_stack(command, text, ["--mode", "check"]):4}  run {least_stack(command, text):4}  '
              f'refused {least_stack(command, script(form, FAR)):4}', flush=True)


if __name__ == '__main__':
    main(sys.argv[1:])
