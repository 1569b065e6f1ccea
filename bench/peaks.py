"""Says how much memory runs take at the peak, beside their times, which run.py tells.

A run keeps what it makes, so a script that makes one thing many times shows what one of them keeps: it is run with a number and with
half of it, and the difference of the peaks, by the difference of the numbers, is told as bytes a thing; so what a start takes doesn't
count, nor what the kernel counts of this runner itself, below which no peak can be seen.

Then one function is called in the first world, in a child of it, and in a world ten deep: the times and the bytes a call, as
multiples of those in the first world. Last come the scripts of worlds/ and their twins without, and a function that calls itself
until the default steps are spent.
"""
import collections
import resource
import sys

from run import AS_STARTED, MOST_STEPS, STEPS_SPENT, best_of_each, run, scripts_of, time_worlds

# `#` is the number, in the text and in what it prints: most are a little less than a power of two, where what has doubled is full;
# one thing may take `room` bytes at most, the run with that number `most`
Kind = collections.namedtuple('Kind', 'name thing number text out room most', defaults=[None, None])
KINDS = (
    Kind('calls', 'call', 1_048_000, 'function f(n) { return n + 1; } var n = 0; while (n < #) n = f(n); print(n);', '#', 272),
    Kind('objects', 'object', 1_048_000, 'var o, i; for (i = 0; i < #; i++) o = {a: i}; print(o.a + 1);', '#', 136),
    Kind('arrays of three', 'array', 524_000, 'var a, i; for (i = 0; i < #; i++) a = [i, i, i]; print(a[2] + 1);', '#'),
    Kind('constructed', 'object', 524_000, 'function P(x) { this.x = x; } var p, i; for (i = 1; i <= #; i++) p = new P(i); print(p.x);', '#'),
    Kind('closures', 'closure', 262_000, 'var f, i; for (i = 0; i < #; i++) f = function () { return i; }; print(f());', '#', 640),
    Kind('errors', 'error', 262_000, 'var n = 0; while (n < #) try { throw new Error("m"); } catch (e) { n++; } print(n);', '#'),
    Kind('a list', 'node', 262_000, 'var l = null, n = 0; while (n < #) { l = {next: l, v: n}; n++; } print(l.v + 1);', '#'),
    Kind('elements', 'element', 1_048_000, 'var a = []; while (a.length < #) a[a.length] = 1; print(a.length);', '#'),
    Kind('appends', 'append', 1_000_000, 'var s = ""; while (s.length < #) s += "x"; print(s.length);', '#', None, 64_000_000),
    Kind('short texts', 'text', 524_000, 'var s, i; for (i = 1; i <= #; i++) s = "k" + i; print(s);', 'k#'),
    Kind('sprouted', 'world', 262_000, 'var w, i; for (i = 0; i < #; i++) w = thisWorld.sprout(); in w { print(i); }', '#'),
    Kind('dropped', 'world', 262_000, 'var o = {a: 1, b: 2, c: 3}, w, i; for (i = 0; i < #; i++) { w = thisWorld.sprout(); '
         'in w { o.a = o.b + o.c + i; } } in w { print(o.a - 4); }', '#'),
    Kind('committed', 'world', 262_000, 'var o = {a: 0, b: 2, c: 3}, w; while (o.a < #) { w = thisWorld.sprout(); '
         'in w { o.a = o.a + o.c - o.b; } w.commit(); } print(o.a);', '#'),
)
# how deep the world is in which a function is called, with what its time and its bytes may be at most, as multiples of the first world's
PLACES = {'in the first world': (0, None, None), 'in a child': (1, 1.3, 1.3), 'ten deep': (10, 1.5, 1.3)}
CALLED = (
    Kind('short', 'call', 262_000, 'function f(a, b) { return a + b; }', '#'),
    Kind('longer', 'call', 131_000, 'var base = 3; function f(a, b) { var o = {k: b}, s = 0, i; for (i = 0; i < 4; i++) s += o.k % 5 * i + base; return s; }',
         '#'),
)
CALLING = 'var w = thisWorld, d; for (d = 0; d < @; d++) w = w.sprout(); in w { for (var i = 0, n = 0; i < #; i++) n = f(n, i); print(i); }'
RUNAWAY, MOST_OF_RUNAWAY = 'function f() { f(); } f();', 1_000_000_000


def of_number(text, number):
    return text.replace('#', str(number))


def floor():
    """What this runner has itself at its peak: a run of less is counted with it."""
    return resource.getrusage(resource.RUSAGE_SELF).ru_maxrss * 1024


def megabytes(peak):
    return f'{"<" if peak <= floor() * 1.05 else " "}{peak / 1e6:6.1f} MB'


def best_of_texts(runs, program, kind, texts, number):
    """Seconds and bytes of each text with a number; each must print what the kind does."""
    commands = [([*program, '--steps', str(MOST_STEPS)], of_number(text, number), AS_STARTED) for text in texts]
    due, answers = f'{of_number(kind.out, number)}\n'.encode(), best_of_each(runs, commands)
    for text, (status, printed, _, _) in zip(texts, answers):
        if status or printed != due:
            sys.exit(f'{of_number(text, number)}: the program ends with {status} and prints {printed!r}, where {due!r} is due')
    return [(seconds, peak) for _, _, seconds, peak in answers]


def costs(runs, program, kind, texts):
    """Of each text the seconds, the bytes at the peak, and by how many of those the peak grows with one thing more."""
    half = kind.number // 2
    whole, less = best_of_texts(runs, program, kind, texts, kind.number), best_of_texts(1, program, kind, texts, half)
    return [(seconds, peak, (peak - lower) / (kind.number - half)) for (seconds, peak), (_, lower) in zip(whole, less)]


def beyond(value, most, shown):
    """What a value may be at most, where that is known."""
    return '' if most is None else f'  of {shown}' + ('' if value <= most else ' MISSED')


def limit(peak, most):
    return beyond(peak, most, f'{(most or 0) / 1e6:.0f} MB')


def tell_kind(runs, program, kind):
    [(seconds, peak, one)] = costs(runs, program, kind, [kind.text])
    print(f'{kind.name:16} {kind.number:8} {seconds:7.3f} s {seconds * 1e9 / kind.number:6.0f} ns {megabytes(peak)}{limit(peak, kind.most)} '
          f'{one:6.0f} bytes for each {kind.thing}{beyond(round(one), kind.room, kind.room)}', flush=True)


def tell_calls(runs, program, kind):
    """The same calls in worlds of each depth, in turn."""
    texts = [f'{kind.text} {CALLING}'.replace('@', str(depth)) for depth, _, _ in PLACES.values()]
    measured = costs(runs, program, kind, texts)
    for (place, (_, most_time, most_bytes)), (seconds, _, one) in zip(PLACES.items(), measured):
        times, room = seconds / measured[0][0], one / measured[0][2]
        print(f'{kind.name:8} {place:20} {seconds * 1e9 / kind.number:7.0f} ns and {one:6.0f} bytes a call   '
              f'{times:6.2f} x{beyond(times, most_time, most_time)}, {room:6.2f} x{beyond(room, most_bytes, most_bytes)}', flush=True)


def tell_runaway(program):
    status, _, seconds, peak = run(program, RUNAWAY)
    if status != STEPS_SPENT:
        sys.exit(f'{RUNAWAY}: the program ends with {status}')
    print(f'{"runaway calls":16} {"":8} {seconds:7.3f} s {"":9} {megabytes(peak)}{limit(peak, MOST_OF_RUNAWAY)} until the default steps are spent',
          flush=True)


def peaks(program, only, runs):
    for kind in KINDS:
        if kind.name.startswith(only):
            tell_kind(runs, program, kind)
    if not only or 'runaway calls'.startswith(only):
        tell_runaway(program)
    if not only:
        print('\nthe same function called')
        for kind in CALLED:
            tell_calls(runs, program, kind)
    worlds = {script.name: script for script in scripts_of('worlds', only)}
    if worlds:
        print('\nwith worlds; the others without')
    for name, script in worlds.items():
        if not name.endswith('.plain'):
            time_worlds(runs, program, script, worlds[name + '.plain'])
