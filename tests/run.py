#!/usr/bin/env python3
"""Runs tables of rows, and the examples, on the built program.

usage: tests/run.py [TABLE..] [-- COMMAND..]     no TABLE: all of tests/*.jsonl, and the examples

A table has a row a line, a JSON object: `id`, `words`, `stdin` (or `stdin_hex`, or `parts`: texts, each with how many times it stands
there, `#` in it being the number of the time), and the `out`, `err` and `status` that are due.
An `err` of `usage: ` stands for one line that begins so. Of an example, examples/NAME.js, examples/NAME.out is due, nothing on
standard error, and status 0; and its log is one that is audited. So it is of a play, examples/NAME.play, whose first line has its
words behind `// worlds`, and which has no log. A row may have besides:
  lines        in place of `out`: patterns, each with how many lines of `out` it fits, or null where that is one at least
  last         the pattern of the last line of `out`
  audited      `out` is given to the program in mode `audit`, which must say yes
  times        standard input is that many times `stdin`
  stdin_from   standard input is this file or folder
  full         of `out` and `err` the streams whose writes all fail
  gone         of `out` and `err` the streams that are pipes whose reader has gone
  closed       of `in`, `out` and `err` the streams that are closed
  broken       standard input gives `stdin`, and then fails
  taken        standard input is a file, of which so many bytes are taken
  most         of `out` and `err` a stream that is a file, with the bytes that it takes: a write past them fails
  pieces       the lengths of the writes on standard output
  memory_mb    the program has so much address space
  stack_kb     the program has so much stack
  fronts       in place of `out`, `err` and `status`: the script is not run alone, but each of its fronts. A part of this list has the
               greatest length of the fronts for which it holds, then their `out`, `err` and `status`
  stops        the same of each number from 1 on, which stands in place of `#` in `stdin`
  cut          of `in`, `out` and `err` a stream that fails behind each front of what goes through it, one after another, and last behind
               all of it, where a write is not missed
  program      the row runs another program than worlds: that of this crate

Without a COMMAND the program is what ./worlds runs, which is proved and built first where a source is newer, as the others are.
Each row that differs has a line here. The last line counts, and the status is 1 where a row differs.
"""
import concurrent.futures
import contextlib
import glob
import json
import os
import re
import resource
import signal
import socket
import subprocess
import sys

TOP = os.path.dirname(os.path.dirname(os.path.abspath(__file__)))
SECONDS = 120
SHOWN = 300
STREAMS = ('in', 'out', 'err')
LIMITS = (('memory_mb', resource.RLIMIT_AS, 20), ('stack_kb', resource.RLIMIT_STACK, 10))
READ_FAULT, OUT_FAULT, ERR_FAULT = 6, 7, 8


def rows_of_table(path):
    with open(path, encoding='utf-8') as table:
        for row in map(json.loads, table):
            if 'fronts' in row:
                yield from rows_by_number(row, row['fronts'], 0, lambda length, stdin: stdin[:length])
            elif 'stops' in row:
                yield from rows_by_number(row, row['stops'], 1, lambda steps, stdin: stdin.replace('#', str(steps)))
            elif 'cut' in row:
                yield from CUTS[row['cut']](row)
            else:
                yield row


def rows_cut_in(row):
    for length in range(len(row['stdin']) + 1):
        yield row | {'id': f"{row['id']}-{length}", 'stdin': row['stdin'][:length], 'broken': True,
                     'out': '', 'err': 'read failed\n', 'status': READ_FAULT}


def rows_cut_out(row):
    for length in range(len(row['out']) + 1):
        whole = length == len(row['out'])
        yield row | {'id': f"{row['id']}-{length}", 'most': {'out': length}, 'out': row['out'][:length],
                     'err': row['err'] if whole else '', 'status': row['status'] if whole else OUT_FAULT}


def rows_cut_err(row):
    for length in range(len(row['err']) + 1):
        status = row['status'] if length == len(row['err']) else ERR_FAULT
        yield row | {'id': f"{row['id']}-{length}", 'most': {'err': length}, 'err': row['err'][:length], 'status': status}


CUTS = {'in': rows_cut_in, 'out': rows_cut_out, 'err': rows_cut_err}


def rows_by_number(row, due, number, given):
    for greatest, out, err, status in due:
        while number <= greatest:
            yield row | {'id': f"{row['id']}-{number}", 'stdin': given(number, row['stdin']), 'out': out, 'err': err, 'status': status}
            number += 1


def rows_of_examples():
    for path in sorted(glob.glob(os.path.join(TOP, 'examples', '*.js'))):
        with open(path, 'rb') as script, open(path[:-len('.js')] + '.out', encoding='utf-8', newline='') as out:
            yield {'id': 'examples/' + os.path.basename(path), 'words': [], 'stdin_hex': script.read().hex(),
                   'out': out.read(), 'err': '', 'status': 0}
        with open(path, 'rb') as script:
            yield {'id': 'the log of examples/' + os.path.basename(path), 'words': ['--mode', 'log'], 'stdin_hex': script.read().hex(),
                   'lines': [], 'audited': True, 'err': '', 'status': 0}
    for path in sorted(glob.glob(os.path.join(TOP, 'examples', '*.play'))):
        with open(path, 'rb') as play, open(path[:-len('.play')] + '.out', encoding='utf-8', newline='') as out:
            given = play.read()
            yield {'id': 'examples/' + os.path.basename(path), 'words': given.decode().split('\n')[0].removeprefix('// worlds ').split(),
                   'stdin_hex': given.hex(), 'out': out.read(), 'err': '', 'status': 0}


def built():
    """The program itself, since ./worlds looks for newer sources each time."""
    if subprocess.run([os.path.join(TOP, 'worlds'), '--mode', 'check'], stdin=subprocess.DEVNULL, stdout=subprocess.DEVNULL).returncode:
        sys.exit('tests/run.py: ./worlds does not run')
    return [program_of('worlds')]


def program_of(crate):
    return os.path.join(TOP, 'crates', crate, 'out', crate)


def build(crate):
    """Proves and builds the program of a crate where that has not been done since the last change."""
    program, crates = program_of(crate), os.path.join(TOP, 'crates')
    newer = ['find', crates, '-name', 'out', '-prune', '-o', '-type', 'f', '-newer', program, '-print', '-quit']
    if not os.path.exists(program) or subprocess.run(newer, stdout=subprocess.PIPE).stdout:
        built = subprocess.run(['rt', 'run'], cwd=os.path.join(crates, crate), stdin=subprocess.DEVNULL, stdout=subprocess.DEVNULL)
        if built.returncode:
            sys.exit(f'tests/run.py: the program of {crate} could not be built')


def file_of(content, opened):
    file = os.memfd_create('stream')
    opened.callback(os.close, file)
    os.write(file, content)
    os.lseek(file, 0, os.SEEK_SET)
    return file


def input_of(row, opened):
    if 'stdin_from' in row:
        # a folder too, which `open` refuses
        source = os.open(row['stdin_from'], os.O_RDONLY)
        opened.callback(os.close, source)
        return {'stdin': source}
    given = given_by(row) * row.get('times', 1)
    if 'taken' in row:
        return {'stdin': file_of(given, opened)}
    if row.get('broken'):
        ours, theirs = socket.socketpair()
        opened.callback(theirs.close)
        # what a socket holds that is closed resets the other one, which gives what it has and then fails
        theirs.send(b'unread')
        ours.sendall(given)
        ours.close()
        return {'stdin': theirs}
    return {'input': given}


def streams_of(row, opened):
    streams = {'stdout': subprocess.PIPE, 'stderr': subprocess.PIPE}
    if 'full' in row:
        full = opened.enter_context(open('/dev/full', 'wb'))
        streams |= {'std' + name: full for name in row['full'].split()}
    if 'gone' in row:
        reader, writer = os.pipe()
        os.close(reader)
        opened.callback(os.close, writer)
        streams |= {'std' + name: writer for name in row['gone'].split()}
    streams |= {'std' + name: file_of(b'', opened) for name in row.get('most', ())}
    return streams | input_of(row, opened)


def given_by(row):
    if 'parts' in row:
        return ''.join(text.replace('#', str(i)) for text, times in row['parts'] for i in range(times)).encode()
    return bytes.fromhex(row['stdin_hex']) if 'stdin_hex' in row else row['stdin'].encode()


def preparation_of(row):
    """What is done in the program's process before it begins, where there is something."""
    limits = [(limit, row[field] << bits) for field, limit, bits in LIMITS if field in row]
    limits += [(resource.RLIMIT_FSIZE, most) for most in row.get('most', {}).values()]
    closed = [STREAMS.index(name) for name in row.get('closed', '').split()]

    def prepare():
        # past the greatest size of a file a write fails then, and no signal ends the process
        signal.signal(signal.SIGXFSZ, signal.SIG_IGN)
        for limit, size in limits:
            resource.setrlimit(limit, (size, size))
        for stream in closed:
            os.close(stream)
    return prepare if limits or closed else None


def is_due_on_out(row, out):
    if 'lines' not in row:
        return out == row['out'].encode()
    lines = out.decode().split('\n')
    counts = [(sum(1 for line in lines if re.fullmatch(pattern, line)), count) for pattern, count in row['lines']]
    return (lines[-1] == '' and all(found == count or (count is None and found) for found, count in counts)
            and ('last' not in row or re.fullmatch(row['last'], lines[-2]) is not None))


def is_due(row, out, err, status):
    if row['err'] == 'usage: ' and 'most' not in row:
        err_is_due = err.startswith(b'usage: ') and err.endswith(b'\n') and err.count(b'\n') == 1
    else:
        err_is_due = err == row['err'].encode()
    return is_due_on_out(row, out) and err_is_due and status == row['status']


def shown(out, err, status):
    return ' '.join(text if len(text) <= SHOWN else text[:SHOWN] + '..' for text in (repr(out), repr(err))) + f' {status}'


def done_by(command, row):
    """What the program wrote on out and err, its status, and how many bytes it took of a file."""
    with contextlib.ExitStack() as opened:
        streams = streams_of(row, opened)
        done = subprocess.run(command + row['words'], timeout=SECONDS, preexec_fn=preparation_of(row), **streams)
        written = {'out': done.stdout or b'', 'err': done.stderr or b''}
        for name in row.get('most', ()):
            file = streams['std' + name]
            written[name] = os.pread(file, os.fstat(file).st_size, 0)
        taken = os.lseek(streams['stdin'], 0, os.SEEK_CUR) if 'taken' in row else None
        return written['out'], written['err'], done.returncode, taken


def pieces_of(command, row):
    """The lengths of the writes on out: a socket keeps each apart, and holds all of them until they are read."""
    reader, writer = socket.socketpair(socket.AF_UNIX, socket.SOCK_SEQPACKET)
    with reader:
        with writer:
            subprocess.run(command + row['words'], timeout=SECONDS, input=given_by(row), stdout=writer, stderr=subprocess.DEVNULL)
        return list(iter(lambda: len(reader.recv(1 << 20)), 0))


def difference(row, command):
    """What was got in place of what is due, None where that is the same."""
    command = [program_of(row['program'])] if 'program' in row else command
    try:
        out, err, status, taken = done_by(command, row)
        pieces = pieces_of(command, row) if 'pieces' in row else None
    except subprocess.TimeoutExpired:
        return f'no end in {SECONDS} seconds'
    if not is_due(row, out, err, status):
        return shown(out.decode('utf-8', 'replace'), err.decode('utf-8', 'replace'), status)
    if (taken, pieces) != (row.get('taken'), row.get('pieces')):
        return f'{taken} bytes taken, pieces {pieces}'
    return audit_of(out, command) if row.get('audited') else None


def audit_of(log, command):
    """What an audit of the log says in place of yes, None where it says that."""
    done = subprocess.run(command + ['--mode', 'audit'], input=log, timeout=SECONDS, capture_output=True)
    if (done.stdout, done.stderr, done.returncode) == (b'yes\n', b'', 0):
        return None
    return 'of the audit ' + shown(done.stdout.decode('utf-8', 'replace'), done.stderr.decode('utf-8', 'replace'), done.returncode)


def main(words):
    command = []
    if '--' in words:
        command = words[words.index('--') + 1:]
        words = words[:words.index('--')]
    if any(word.startswith('-') for word in words):
        sys.exit(__doc__)
    tables = words or sorted(glob.glob(os.path.join(TOP, 'tests', '*.jsonl')))
    rows = [row for table in tables for row in rows_of_table(table)] + ([] if words else list(rows_of_examples()))
    command = command or built()
    for crate in sorted({row['program'] for row in rows if 'program' in row}):
        build(crate)
    failed = 0
    with concurrent.futures.ThreadPoolExecutor(os.cpu_count()) as pool:
        for row, got in zip(rows, pool.map(lambda row: difference(row, command), rows)):
            if got is not None:
                failed += 1
                print(row['id'], 'wanted', shown(row.get('out', row.get('lines')), row['err'], row['status']), 'got', got, flush=True)
    print(f'{len(rows) - failed} passed, {failed} failed')
    return 1 if failed else 0


if __name__ == '__main__':
    sys.exit(main(sys.argv[1:]))
