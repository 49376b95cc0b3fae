#!/usr/bin/env python3
"""Input that a tool cannot use: status 2, one line on standard error, nothing on standard output.
Output that it cannot write, and streams that are closed, are told the same way.

    errors.py

Needs the shared library. Exit status 0 only if all is as expected.
"""

import pathlib
import subprocess
import sys
import tempfile

sys.path.insert(0, str(pathlib.Path(__file__).resolve().parents[2]))

from tests import ROOT
from tests.shared import faults
from tests.shared.packing import pack
from tests.shared.replayed import expected, number_of_file
from tests.shared.trial import equal, main, run, tool
from thymewax import MEANINGS, Number, SetUp
from thymewax.trace import MOST_BYTES, MOST_SECTIONS, RECORD, header_bytes, join

TOOLS = ('pack', 'unpack', 'explain', 'wave')
RUNNING = ('explain', 'wave')
RIGHT = b'W 40 0\nR c0\n'
# Lines that are no calls, with what the message must show.
NO_CALLS = [
    (b'w 40 0', "'w 40 0'"), (b'W 40', "'W 40'"), (b'W 40  0', "'W 40  0'"),
    (b'W 00040 0', "'W 00040 0'"),
    (b'R c0\r', r"'R c0\r'"), (b'F 100', "'F 100'"), (b'X', "'X'"), (b'S ', "'S '"),
    (b' # comment', '# comment'), (b'--', "'--'"), (b'\xff\0', r"'\xff\x00'"), (b'G', "'G'"),
    (b'W 40 0 ' + b'x' * 100000, "'W 40 0 xxx"),
]


def told_of(number):
    """What a message says of a number."""
    return '%d: %s' % (number, MEANINGS[number])


def refuses(name, *arguments, data=RIGHT, told=(), **variables):
    status, output, message = tool(name, *arguments, data=data, **variables)
    case = '%s %s' % (name, arguments)
    equal(name, case, (status, output), (2, b''))
    equal(name, case, (message[:len(name) + 2], message.count(b'\n'), message[-1:]),
          (b'%s: ' % name.encode(), 1, b'\n'))
    for part in told:
        equal(name, '%s: %s' % (case, message), part in message.decode(), True)


def arguments():
    for name in TOOLS:
        refuses(name, '/nonexistent/file', told=['/nonexistent/file'])
        refuses(name, ROOT, told=[str(ROOT)])
        refuses(name, '--nothing')
        refuses(name, 'one', 'two')
    refuses('explain', '--data=every', told=['--data'])


def lines():
    for name in ('pack', *RUNNING):
        for line, shown in NO_CALLS:
            refuses(name, data=b'R c0\n' * 9 + line + b'\n' + RIGHT, told=['line 10 ', shown])


def many_sections():
    for name in ('pack', *RUNNING):
        refuses(name, data=RIGHT + b'---\n' * MOST_SECTIONS, told=['65 sections, at most 64'])
        status, _, message = tool(name, data=RIGHT + b'---\n' * (MOST_SECTIONS - 1) + RIGHT)
        equal(name, '64 sections', (status, message), (0, b''))


def not_for_pack():
    refuses('pack', data=pack(RIGHT), told=['trace already'])
    most = (MOST_BYTES - header_bytes(1)) // RECORD.size
    refuses('pack', data=b'S\n' * (most + 1), told=['bytes, at most %d' % MOST_BYTES])


def broken_traces():
    """A damaged trace of each kind; scripts are what else the running tools take."""
    seen = set()
    for kind in faults.KINDS:
        for case, trace in kind():
            number = expected(trace)[1]
            if number and (kind, number) not in seen:
                seen.add((kind, number))
                told = [told_of(number_of_file(trace, number))]
                refuses('unpack', data=trace, told=told)
                if number != Number.WRONG_MARK:
                    for name in RUNNING:
                        refuses(name, data=trace, told=told)
    for data in (b'', b'I3T', RIGHT):
        refuses('unpack', data=data, told=[told_of(Number.WRONG_MARK)])


def wrong_record():
    """The place of the wrong record is told."""
    trace = join(faults.DATA, [7, 0])
    place = header_bytes(3) + RECORD.size * (7 + 5)
    broken = trace[:place] + b'Q' + trace[place + 1:]
    for name in ('unpack', *RUNNING):
        refuses(name, data=broken, told=['section 2, record 5', told_of(Number.WRONG_RECORD)])


def set_ups():
    for field in SetUp._fields:
        option = '--' + field.replace('_', '-')
        refuses('explain', option, '2000', told=[told_of(Number.SET_UP_OUT_OF_RANGE)])
    for name in RUNNING:
        for number, told in (('2000', told_of(Number.SET_UP_OUT_OF_RANGE)), ('-1', 'cmd_mark'),
                             (str(1 << 32), 'cmd_mark'), ('four', '--cmd-mark')):
            refuses(name, '--cmd-mark', number, told=[told])


def recordings():
    with tempfile.TemporaryDirectory() as folder:
        path = pathlib.Path(folder) / 'recorded'
        refuses('explain', '--recorded', path, told=[str(path)])
        refuses('explain', '--recorded', '', told=['No such file'])
        refuses('explain', '--recorded', '-', told=['cannot both be standard input'])
        path.write_bytes(RIGHT)
        refuses('explain', '--recorded', '-', '-', told=['cannot both be standard input'])
        status, output, _ = tool('explain', '--recorded', '-', path, data=b'4\n')
        equal('explain', 'recording as input', (status, b'no difference' in output), (0, True))
        for text, line in (('4\nxyz\n', 2), ('00000004 00\n4\n', 2), ('4\n00000004 00\n', 1),
                           ('123456789\n', 1), ('4\n\n4\n', 2), ('00000004 0\n', 1),
                           ('00000004 03\n4 3\n', 2), ('00000004  03\n', 1)):
            path.write_text(text)
            refuses('explain', '--recorded', path, told=['recording, line %d:' % line])


def no_library():
    for name in RUNNING:
        refuses(name, THYMEWAX_LIB_DIR='/nonexistent', told=['python3 -m thymewax.build'])


def closed_output():
    """A reader that stops early is no fault, and there is no message."""
    for name in ('unpack', *RUNNING):
        data = pack(RIGHT * 20000)
        child = subprocess.Popen([sys.executable, '-B', ROOT / 'tools' / name],
                                 stdin=subprocess.PIPE, stdout=subprocess.PIPE,
                                 stderr=subprocess.PIPE)
        child.stdout.close()
        child.stdin.write(data)
        child.stdin.close()
        message = child.stderr.read()
        equal('closed output', name, (child.wait(), message), (0, b''))


def full_output():
    """A full disk: short output is written at the end, long output before."""
    for name in TOOLS:
        for script in (RIGHT, RIGHT * 5000):
            with open('/dev/full', 'wb') as full:
                done = subprocess.run([sys.executable, '-B', ROOT / 'tools' / name], stdout=full,
                                      stderr=subprocess.PIPE, check=False,
                                      input=pack(script) if name == 'unpack' else script)
            equal('full output', name, (done.returncode, done.stderr),
                  (2, b'%s: output: No space left on device\n' % name.encode()))


# A redirection, and what the tool says; None where standard error is no place to say it.
STREAMS = [
    ('>&-', 'standard output is closed'), ('--help >&-', 'standard output is closed'),
    ('--help >/dev/full', 'output: No space left on device'),
    ('1<"$1"', 'output: Bad file descriptor'), ('>&- 2>&-', None), ('>/dev/full 2>/dev/full', None),
    ('--nothing 2>&-', None),
]
# The same where the input is to be read.
READ_STREAMS = [
    ('<&-', 'standard input is closed'), ('<&- >&-', 'standard output is closed'),
    ('0>/dev/null', 'standard input: Bad file descriptor'), ('<&- 2>&-', None),
]


def redirected(name, how, file):
    """Status and both outputs of a tool with streams as a shell makes them; "$1" is a file."""
    return run(['bash', '-c', '"$0" -B "$2" ' + how, sys.executable, file, ROOT / 'tools' / name])


def streams():
    """Streams that are closed, that are open the wrong way, or that are full."""
    with tempfile.TemporaryDirectory() as folder:
        file = pathlib.Path(folder) / 'input'
        for name in (*TOOLS, 'svd.py'):
            file.write_bytes(pack(RIGHT) if name == 'unpack' else RIGHT)
            takes = '' if name == 'svd.py' else '"$1" '
            cases = [(takes + how, told) for how, told in STREAMS]
            if takes:
                cases += READ_STREAMS + [(how + ' <"$1"', told) for how, told in STREAMS]
            for how, told in cases:
                message = '%s: %s\n' % (name.removesuffix('.py'), told) if told else ''
                equal('streams', '%s %s' % (name, how), redirected(name, how, file),
                      (2, b'', message.encode()))
            status, output, message = redirected(name, takes + '<&-', file)
            equal('streams', '%s, no input needed' % name, (status, message), (0, b''))
            equal('streams', '%s, no input needed' % name, output != b'', True)


if __name__ == '__main__':
    main('errors', [arguments, lines, many_sections, not_for_pack, broken_traces, wrong_record,
                    set_ups, recordings, no_library, closed_output, full_output, streams])
