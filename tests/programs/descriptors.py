#!/usr/bin/env python3
"""What the programs session and replay say where a descriptor fails them.

    descriptors.py SESSION REPLAY

Where standard input cannot be read or standard output takes no byte, a program says so on standard
error with the number of answers that were written whole, and ends with status 0: it has no other.
What it wrote before is what it writes of the same input else. Exit status 0 only if all is so.
"""

import fcntl
import os
import pathlib
import resource
import subprocess
import sys
import tempfile

sys.path.insert(0, str(pathlib.Path(__file__).resolve().parents[2]))

from tests.shared.faults import long_traces
from tests.shared.packing import pack
from tests.shared.trial import Wrong, equal, generated, main, run
from thymewax import Answer, Number
from thymewax.trace import header_bytes

SECONDS = 20
CALLS = 2000
INPUT = b'%s: standard input cannot be read; answers written: %d\n'
OUTPUT = b'%s: standard output cannot be written; answers written: %d\n'
ANSWER = 12
# A pipe takes so many bytes, a file by the limit so many: in either the last answer is cut.
PIPE, FILE = 4096, 1000


class Program:
    """A program, inputs for it, and what it writes of the first of them."""

    def __init__(self, path, name):
        script = generated(2, CALLS)
        self.path, self.name, self.script = path, name.encode(), script
        self.data = script if name == 'session' else pack(script)
        status, self.answers, message = run([path], self.data)
        equal(name, 'no failure', (status, message, len(self.answers)), (0, b'', ANSWER * CALLS))

    def ended(self, case, data=None, **descriptors):
        """What it says on standard error. It must end by itself."""
        with tempfile.TemporaryFile() as file:
            if data is not None:
                file.write(data)
                file.seek(0)
                descriptors['stdin'] = file
            try:
                done = subprocess.run([self.path], stderr=subprocess.PIPE, timeout=SECONDS,
                                      check=False, **descriptors)
            except subprocess.TimeoutExpired:
                raise Wrong('%s, %s: it does not end' % (self.path, case)) from None
        equal(case, 'status', done.returncode, 0)
        return done.stderr

    def told(self, case, words, count, **descriptors):
        equal(case, self.path, self.ended(case, **descriptors), words % (self.name, count))

    def shell(self, descriptors, data=None):
        """Status, output and messages with the descriptors of a shell's command line."""
        return run(['sh', '-c', 'exec "$0" ' + descriptors, self.path], data or self.data)


def ended_by(number):
    """The line of the number that ends a replay."""
    return b'%s\n' % str(Answer(0, number)).encode()


def both(session, replay):
    return Program(session, 'session'), Program(replay, 'replay')


def unreadable(session, replay):
    """A directory, and a closed descriptor. The replay's last line is that of a file that is cut."""
    for program in both(session, replay):
        last = b'' if program.name == b'session' else ended_by(Number.WRONG_MARK)
        for descriptors in ('</', '<&-'):
            equal('input that fails', descriptors, program.shell(descriptors),
                  (0, last, INPUT % (program.name, 0)))
        equal('input that fails', 'standard error too', program.shell('<&- 2>&-'), (0, last, b''))


def not_ready(session, replay):
    """An input with nothing there for now, before its first byte, after some, and inside of what
    could be taken as a whole line."""
    session, replay = both(session, replay)
    line = session.script.index(b'\n') + 1
    record = header_bytes(1)
    waits(session, b'', b'', 0)
    waits(session, session.script[:line], session.answers[:ANSWER], 1)
    waits(session, b'R 4', b'', 0)
    waits(replay, b'', ended_by(Number.WRONG_MARK), 0)
    waits(replay, replay.data[:record + 40],
          replay.answers[:3 * ANSWER] + ended_by(Number.WRONG_TABLE), 3)


def waits(program, data, output, count):
    reader, writer = os.pipe()
    os.set_blocking(reader, False)
    os.write(writer, data)
    with tempfile.TemporaryFile() as sink:
        program.told('input not ready', INPUT, count, stdin=reader, stdout=sink)
        sink.seek(0)
        equal('input not ready', data[:20], sink.read(), output)
    os.close(reader)
    os.close(writer)


def unwritable(session, replay):
    """Closed, a full disk, a pipe that nobody reads where the signal of that is ignored; for the
    session also where the end of the input ends the only line, for the replay any way to end."""
    for program in both(session, replay):
        words = OUTPUT % (program.name, 0)
        for descriptors in ('>&-', '>/dev/full'):
            equal('output that fails', descriptors, program.shell(descriptors), (0, b'', words))
        equal('output that fails', 'standard error too', program.shell('>&- 2>&-'), (0, b'', b''))
        reader, writer = os.pipe()
        os.close(reader)
        program.told('output that fails', OUTPUT, 0, data=program.data, stdout=writer,
                     restore_signals=False)
        os.close(writer)
    full = '>/dev/full'
    session, replay = both(session, replay)
    equal('output that fails', 'last line', session.shell(full, b'R 40'),
          (0, b'', OUTPUT % (b'session', 0)))
    for name, trace in long_traces().items():
        equal('output that fails', name, replay.shell(full, trace),
              (0, b'', OUTPUT % (b'replay', 0)))
    equal('output that fails', 'both', replay.shell('<&- >&-'),
          (0, b'', INPUT % (b'replay', 0) + OUTPUT % (b'replay', 0)))


def nothing_to_write(session, replay):
    """An output that fails is not told where there is nothing to write."""
    session, replay = both(session, replay)
    equal('no output', 'session', session.shell('>&-', b'# no call\n'), (0, b'', b''))
    equal('no output', 'replay', replay.shell('>&-', pack(b'')), (0, b'', b''))


def cut_short(session, replay):
    """An output that takes a part: a pipe that is not ready when it is full, a file at its limit."""
    for program in both(session, replay):
        reader, writer = os.pipe()
        fcntl.fcntl(writer, fcntl.F_SETPIPE_SZ, PIPE)
        os.set_blocking(writer, False)
        program.told('output cut short', OUTPUT, PIPE // ANSWER, data=program.data, stdout=writer)
        os.close(writer)
        with open(reader, 'rb') as pipe:
            equal('output cut short', 'pipe', pipe.read(), program.answers[:PIPE])
        with tempfile.TemporaryFile() as sink:
            program.told('output cut short', OUTPUT, FILE // ANSWER, data=program.data, stdout=sink,
                         restore_signals=False, preexec_fn=limit_file)
            sink.seek(0)
            equal('output cut short', 'file', sink.read(), program.answers[:FILE])


def limit_file():
    resource.setrlimit(resource.RLIMIT_FSIZE, (FILE, FILE))


if __name__ == '__main__':
    if len(sys.argv) != 3:
        sys.exit(__doc__)
    main('descriptors', [unreadable, not_ready, unwritable, nothing_to_write, cut_short],
         *map(os.path.abspath, sys.argv[1:]))
