#!/usr/bin/env python3
"""tools/session and tools/replay: what they print is what the programs print; what fails has a
status and a line; tools/pack names the rule that a line breaks as tools/session does.

    programs.py SESSION REPLAY

The programs are those that the tools run. Exit status 0 only if all is as expected.
"""

import fcntl
import os
import pathlib
import re
import resource
import subprocess
import sys
import tempfile
import time

sys.path.insert(0, str(pathlib.Path(__file__).resolve().parents[2]))

from tests import ROOT
from tests.scripts.source import Source
from tests.shared import faults
from tests.shared.packing import pack
from tests.shared.replayed import ENDS, expected
from tests.shared.trial import Wrong, equal, generated, main, run, tool
from thymewax import MEANINGS, Answer, Number
from thymewax import session as lines
import inputs

SECONDS = 20
CALLS = 20000
ANSWER = 12
FILE = 1000
RIGHT = b'# release\nW 40 0\n\nR c0\n'
ANSWERS = b'00000000 00\n00000004 00\n'
BESIDE = b'W 40 0               00000000 00\nR c0                 00000004 00\n'
# Lines that are no calls, each with the rule that it breaks.
RULES = {
    b'R c0\r': 'a carriage return; a line ends at a newline alone',
    b'\r': 'a carriage return; a line ends at a newline alone',
    b'R\tc0': 'a tab; one space stands between fields',
    b' R c0': 'a space before the letter',
    b' # comment': 'a space before the letter',
    b'w 40 0': 'the letter W in lower case',
    b'a': 'the letter A in lower case',
    b'Q': "no call begins with 'Q'",
    b'G': "no call begins with 'G'",
    b'read c0': "no call begins with 'r'",
    b'--': "no call begins with '-'",
    b'\xff\0': r"no call begins with '\xff'",
    b'Rc0': 'no space behind the letter R',
    b'START': 'no space behind the letter S',
    b'W 40  0': 'two spaces between fields',
    b'S ': 'a space at its end',
    b'F 0 ': 'a space at its end',
    b'X': 'too few fields: X takes byte',
    b'W 40': 'too few fields: W takes offset and value',
    b'D 1': 'too few fields: D takes first word and second word',
    b'T 1': 'too many fields: T takes none',
    b'I 8 5a 0': 'too many fields: I takes address and byte',
    b'W 0x40 0': "the offset '0x40' is not of hex digits alone",
    b'W 40 -1': "the value '-1' is not of hex digits alone",
    b'F 100': "the code '100' is too large, at most ff",
    b'W 12345 0': "the offset '12345' is too large, at most ffff",
    b'D 0 123456789': "the second word '123456789' is too large, at most ffffffff",
    b'W 00040 0': "the offset '00040' has too many digits, at most 4",
    b'X 000': "the byte '000' has too many digits, at most 2",
}


def ended(name, *arguments, data=b'', status=0, told=b'', output=b''):
    """A run of a tool, all of it as expected."""
    equal(name, (arguments, data[:40]), tool(name, *arguments, data=data), (status, output, told))


def same_answers(session, replay):
    """The tools stand in for the programs."""
    script = generated(3, CALLS)
    answers = run([session], script)[1]
    ended('session', '--skip', data=script, output=answers)
    calls = b'\n'.join(line for line in lines.lines(script) if lines.call_of(line))
    ended('session', data=calls, output=answers)
    ended('session', data=b'')
    ended('session', data=RIGHT, output=ANSWERS)
    trace = pack(script)
    ended('replay', data=trace, output=run([replay], trace)[1])
    ended('replay', data=pack(b''))


def files(session, _):
    with tempfile.TemporaryDirectory() as folder:
        first, second = pathlib.Path(folder) / 'first', pathlib.Path(folder) / 'second'
        first.write_bytes(b'W 40 0')
        second.write_bytes(b'R c0\nR c0')
        ended('session', first, second, output=ANSWERS + ANSWERS[ANSWER:])
        ended('session', first, '-', data=b'R c0', output=ANSWERS)
        ended('session', second, first, output=run([session], b'R c0\nR c0\nW 40 0')[1])
        ended('session', first, '--calls', '-', data=b'R c0', output=BESIDE)
        second.write_bytes(b'R c0\r\n')
        ended('session', first, second, status=2, told=(
            "session: %s: line 1 is no call: 'R c0\\r': %s\n" % (second, RULES[b'\r'])).encode())
        first.write_bytes(pack(b'W 40 0\nR c0'))
        ended('replay', first, output=ANSWERS)


def calls_beside(session, _):
    """With --calls every answer stands behind its call."""
    script = generated(5, CALLS)
    calls = [line for line in lines.lines(script) if lines.call_of(line)]
    answers = run([session], script)[1].splitlines()
    wanted = b''.join(b'%-21b%b\n' % pair for pair in zip(calls, answers))
    ended('session', '--skip', '--calls', data=script, output=wanted)


def rules(*_):
    """A line that is no call: its number and the rule, and no call is made. With --skip it is
    skipped, as the program does."""
    for line, rule in RULES.items():
        script = RIGHT + line + b'\n' + RIGHT
        message = 'line 5 is no call: %s: %s\n' % (ascii(line.decode('latin-1')), rule)
        for name in ('session', 'pack'):
            ended(name, data=script, status=2, told=('%s: %s' % (name, message)).encode())
        ended('session', '--skip', data=script, output=ANSWERS + ANSWERS)
    ended('session', data=b'---', status=2,
          told=b"session: line 1 is no call: '---': no call begins with '-'\n")
    long = b'W 40 ' + b'0' * 100000
    equal('session', 'long line', tool('session', data=long), (2, b'', (
        "session: line 1 is no call: '%s': the value '%s' has too many digits, at most 8\n"
        % (long[:40].decode(), '0' * 40)).encode()))


def carriage_returns(*_):
    """A script with the line ends of another system is no empty session."""
    script = b'W 40 0\r\nR c0\r\n'
    ended('session', data=script, status=2, told=b"session: line 1 is no call: 'W 40 0\\r': "
          b'a carriage return; a line ends at a newline alone\n')
    ended('session', '--skip', data=script)


def any_line(*_):
    """Every line that is no call breaks a rule."""
    source = Source(1)
    tried = 0
    while tried < 100000:
        text = ''.join(source.pick('WRSXFIDAGg 0019afx\t\r-') for _ in range(1 + source.below(12)))
        bursts = bool(source.below(2))
        if inputs.call_in(text.encode(), bursts) is None:
            tried += 1
            if not inputs.broken_rule(text, bursts):
                raise Wrong('%r breaks no rule' % text)
    equal('any line', 'tried', tried, 100000)


def options(*_):
    for name in ('session', 'replay'):
        status, output, message = tool(name, '--help')
        equal('options', name, (status, message, output.startswith(b'usage: %s ' % name.encode())),
              (0, b'', True))
        equal('options', name, b'Exit status: 0 where' in b' '.join(output.split()), True)
        for package in ('bindings/python/pyproject.toml', 'bindings/rust/Cargo.toml'):
            version = re.search(r'^version = "(.*)"', (ROOT / package).read_text(), re.M)[1]
            ended(name, '--version', output=b'%s (Thymewax) %s\n' % (name.encode(),
                                                                    version.encode()))
        ended(name, '--nothing', status=2,
              told=b'%s: unrecognized arguments: --nothing\n' % name.encode())
        for path, why in (('/nonexistent', 'No such file or directory'), ('/', 'Is a directory')):
            ended(name, path, status=2, told=('%s: %s: %s\n' % (name, path, why)).encode())
        ended(name, '--program', '/nonexistent', status=2, data=RIGHT, told=(
            '%s: /nonexistent: No such file or directory; `tools/build %s` builds it\n'
            % (name, name)).encode())
    ended('replay', 'one', 'two', status=2, told=b'replay: unrecognized arguments: two\n')


def wrong_traces(_, replay):
    """A trace of each kind and end."""
    seen = set()
    for kind in faults.KINDS:
        for _, trace in kind():
            done, number = expected(trace)
            if (kind, number) not in seen:
                seen.add((kind, number))
                told = '' if not number else 'replay: %d: %s; records done: %d\n' % (
                    number, MEANINGS[number], len(done))
                ended('replay', data=trace, status=int(number != 0), told=told.encode(),
                      output=run([replay], trace)[1])
    equal('wrong traces', 'numbers', {number for _, number in seen}, set(ENDS))


def no_wait(*_):
    """A trace that is wrong ends the tool, though its input is still open."""
    child = subprocess.Popen([sys.executable, '-B', ROOT / 'tools/replay'], stdin=subprocess.PIPE,
                             stdout=subprocess.PIPE, stderr=subprocess.PIPE)
    child.stdin.write(b'I3TX')
    child.stdin.flush()
    try:
        status = child.wait(SECONDS)
    except subprocess.TimeoutExpired:
        child.kill()
        raise Wrong('replay waits for more of a wrong trace') from None
    equal('no wait', 'replay', (status, child.stdout.read().decode()),
          (1, str(Answer(0, Number.WRONG_MARK)) + '\n'))


def shell(name, descriptors, data=RIGHT):
    """Status and output with the descriptors of a shell's command line."""
    return run(['sh', '-c', 'exec "$0" "$1" ' + descriptors, sys.executable, ROOT / 'tools' / name],
               data)


def unreadable(*_):
    for name in ('session', 'replay'):
        equal('input that fails', name, shell(name, '<&-'), (
            1, b'', b'%s: standard input cannot be read: it is closed\n' % name.encode()))
        # Python itself ends here, with its own words.
        status, output, message = shell(name, '</')
        equal('input that fails', name, (status, output, b'is a directory' in message),
              (1, b'', True))


def unwritable(*_):
    for name, data in (('session', RIGHT), ('replay', pack(RIGHT))):
        for descriptors, why in (('>&-', b'it is closed'),
                                 ('>/dev/full', b'No space left on device')):
            told = b'%s: standard output cannot be written: %s' % (name.encode(), why)
            equal('output that fails', descriptors, shell(name, descriptors, data),
                  (1, b'', told + b'; answers written: 0\n'))
            equal('output that fails', '--help', shell(name, '--help ' + descriptors),
                  (1, b'', told + b'\n'))
        equal('output that fails', 'standard error too', shell(name, '>&- 2>&-', data),
              (1, b'', b''))
    equal('output that fails', 'no answer', shell('session', '>&-', b'# no call\n'), (0, b'', b''))


def limit_file():
    resource.setrlimit(resource.RLIMIT_FSIZE, (FILE, FILE))


def cut_short(*_):
    """A file at its limit: whole answers are counted."""
    script = generated(2, CALLS)
    for name, data, arguments in (('session', script, ['--skip']), ('replay', pack(script), []),
                                  ('session', script, ['--skip', '--calls'])):
        width = 33 if '--calls' in arguments else ANSWER
        with tempfile.TemporaryFile() as sink:
            done = subprocess.run([sys.executable, '-B', ROOT / 'tools' / name, *arguments],
                                  input=data, stdout=sink, stderr=subprocess.PIPE, check=False,
                                  preexec_fn=limit_file)
            told = b'%s: standard output cannot be written: File too large; answers written: %d\n'
            equal('output cut short', name, (done.returncode, done.stderr),
                  (1, told % (name.encode(), FILE // width)))
            sink.seek(0)
            whole = tool(name, *arguments, data=data)[1]
            equal('output cut short', name, sink.read(), whole[:FILE])


def closed_reader(*_):
    """A reader that stops early, as head does: no line, and no 0."""
    script = b'R 40\n' * CALLS
    for name, data in (('session', script), ('replay', pack(script))):
        child = subprocess.Popen([sys.executable, '-B', ROOT / 'tools' / name],
                                 stdin=subprocess.PIPE, stdout=subprocess.PIPE,
                                 stderr=subprocess.PIPE)
        child.stdout.close()
        _, message = child.communicate(data)
        equal('closed reader', name, (child.returncode, message), (1, b''))


def not_ready(*_):
    """An input that has no bytes for now, and an output that takes none, are waited for."""
    script = b'R 40\n' * CALLS
    for name, data in (('session', script), ('replay', pack(script))):
        reader, feed = os.pipe()
        output, writer = os.pipe()
        os.set_blocking(reader, False)
        os.set_blocking(writer, False)
        fcntl.fcntl(writer, fcntl.F_SETPIPE_SZ, 4096)
        child = subprocess.Popen([sys.executable, '-B', ROOT / 'tools' / name], stdin=reader,
                                 stdout=writer, stderr=subprocess.PIPE)
        os.close(reader)
        os.close(writer)
        # Pause, some bytes, pause, the rest; and no byte of the output is taken before a pause.
        with open(feed, 'wb', buffering=0) as file:
            for part in (data[:1003], data[1003:40000]):
                time.sleep(0.3)
                file.write(part)
            time.sleep(0.3)
            feeder = subprocess.Popen(['cat'], stdin=subprocess.PIPE, stdout=file)
        with open(output, 'rb') as pipe:
            feeder.stdin.write(data[40000:])
            feeder.stdin.close()
            time.sleep(0.3)
            answers = pipe.read()
        feeder.wait()
        equal('not ready', name, (child.wait(), child.stderr.read()), (0, b''))
        equal('not ready', name, answers == b'00000001 00\n' * CALLS, True)


def other_programs(*_):
    """What a program says, a status or a signal of its own, and answers that are too few."""
    for text, told in (
            ('cat >/dev/null; echo "00000000 00"; echo "session: what happened" >&2',
             b'session: what happened\n'),
            ('cat >/dev/null; echo "00000000 00"; exit 3',
             b'session: the program ended with status 3; answers written: 1\n'),
            ('cat >/dev/null; echo "00000000 00"; kill -9 $$',
             b'session: the program ended with status -9; answers written: 1\n'),
            ('echo "00000000 00"', b'session: the program gave 1 answers to 2 calls\n')):
        with tempfile.TemporaryDirectory() as folder:
            path = pathlib.Path(folder) / 'program'
            path.write_text('#!/bin/sh\n' + text)
            path.chmod(0o755)
            ended('session', '--program', path, data=RIGHT, status=1, told=told,
                  output=ANSWERS[:ANSWER])


if __name__ == '__main__':
    if len(sys.argv) != 3:
        sys.exit(__doc__)
    main('programs', [
        same_answers, files, calls_beside, rules, carriage_returns, any_line, options, wrong_traces,
        no_wait, unreadable, unwritable, cut_short, closed_reader, not_ready, other_programs],
        *map(os.path.abspath, sys.argv[1:]))
