"""What tools/session and tools/replay share: where the program is, its run, and how they end.

Status 0 says that every answer was written. 1: reading or writing failed, or the program ended
before its input did. 2: wrong usage, or input that cannot be used. But for 0 there is one line on
standard error; none where the reader of the output closes its end, as head does, which is a 1.
An input or output that is not ready is waited for.
"""

import argparse
import contextlib
import os
import pathlib
import select
import subprocess
import sys
import tempfile
import threading
import tomllib
from collections.abc import Callable, Iterable, Iterator
from io import BufferedReader, FileIO
from typing import BinaryIO, NoReturn

import inputs
from inputs import PIECE, Bad

ROOT = pathlib.Path(__file__).resolve().parent.parent
STATUSES = '''Exit status: 0 where every answer was written; 1 where reading or writing failed or the
program ended before its input did; 2 for wrong usage or input that cannot be used.'''
BROKEN = 1
STDIN, STDOUT, STDERR = range(3)
ANSWER_BYTES = 12


class Broken(Exception):
    """What failed while the program was to run; no words where nobody is to be told."""


def version() -> str:
    """The project's version, that of the Python package."""
    text = (ROOT / 'bindings/python/pyproject.toml').read_text()
    return tomllib.loads(text)['project']['version']


class Options(argparse.ArgumentParser):
    """Options whose faults, and help that cannot be written, are told as all else."""

    def error(self, message: str) -> NoReturn:
        raise Bad(message)

    def _print_message(self, message: str, file: object = None) -> None:
        Output().write(message.encode())


def options(name: str, what: str, more: str) -> Options:
    """The options that both tools have."""
    made = Options(prog=name, description=what, epilog='%s %s' % (more, STATUSES))
    made.add_argument('--version', action='version', version='%s (Thymewax) %s' % (name, version()))
    made.add_argument('--program', metavar='FILE', default=str(ROOT / 'target/bin' / name),
                      help='the program to run; default: target/bin/%s of the repository' % name)
    return made


def occupy_closed() -> set[int]:
    """Which of the three descriptors are closed. No file opened later gets their numbers."""
    closed = set()
    for descriptor in (STDIN, STDOUT, STDERR):
        try:
            os.fstat(descriptor)
        except OSError:
            os.open(os.devnull, os.O_RDWR)
            closed.add(descriptor)
    return closed


CLOSED = occupy_closed()


def source(path: str) -> FileIO:
    """What is to be read: a file, or standard input for -."""
    if path == '-':
        if STDIN in CLOSED:
            raise Broken('standard input cannot be read: it is closed')
        return open(STDIN, 'rb', buffering=0, closefd=False)
    try:
        return open(path, 'rb', buffering=0)
    except OSError as error:
        raise Bad('%s: %s' % (path, error.strerror)) from None


def pieces(file: FileIO) -> Iterator[bytes]:
    """What a file has, as it comes."""
    try:
        yield from inputs.pieces(file)
    except OSError as error:
        name = 'standard input' if file.fileno() == STDIN else file.name
        raise Broken('%s cannot be read: %s' % (name, error.strerror)) from None


class Feed(threading.Thread):
    """The input of a program, which may end before its input does. `fault` is what failed."""

    def __init__(self, data: Iterable[bytes], pipe: BinaryIO) -> None:
        super().__init__(daemon=True)
        self.data, self.pipe, self.fault = data, pipe, None

    def run(self) -> None:
        try:
            for piece in self.data:
                self.pipe.write(piece)
                self.pipe.flush()
        except BrokenPipeError:
            pass
        except Broken as fault:
            self.fault = fault
        finally:
            with contextlib.suppress(BrokenPipeError):
                self.pipe.close()


class Output:
    """Standard output. Where answers have a width, those that it took are told."""

    def __init__(self, width: int = 0) -> None:
        self.width, self.taken = width, 0

    def write(self, data: bytes) -> None:
        try:
            self.write_all(data)
        except BrokenPipeError:
            raise Broken from None
        except OSError as error:
            done = '; answers written: %d' % (self.taken // self.width) if self.width else ''
            raise Broken('standard output cannot be written: %s' % error.strerror + done) from None

    def write_all(self, data: bytes) -> None:
        if data and STDOUT in CLOSED:
            raise OSError(None, 'it is closed')
        rest = memoryview(data)
        while rest:
            try:
                count = os.write(STDOUT, rest)
            except BlockingIOError:
                select.select([], [STDOUT], [])
            else:
                self.taken += count
                rest = rest[count:]


class Run:
    """A run of a program: what it answers is written as it comes. `show` makes the text of some
    whole answers, `width` bytes for each. Afterwards `answers` counts them, `last` is the last of
    them, and `fault` what failed of the input, if anything did."""

    def __init__(self, name: str, program: str, show: Callable[[bytes], bytes] = bytes,
                 width: int = ANSWER_BYTES) -> None:
        self.name, self.program, self.show, self.output = name, program, show, Output(width)
        self.answers, self.last, self.fault = 0, b'', None

    def make(self, data: Iterable[bytes]) -> None:
        with tempfile.TemporaryFile() as said:
            status = self.follow(data, said)
            said.seek(0)
            words = said.read().decode('latin-1').rstrip('\n')
        if words:
            # A program begins with its name, as a tool does.
            raise Broken(words.removeprefix(self.name + ': '))
        if status:
            raise Broken('the program ended with status %d; answers written: %d'
                         % (status, self.answers))

    def follow(self, data: Iterable[bytes], said: BinaryIO) -> int:
        try:
            child = subprocess.Popen([self.program], stdin=subprocess.PIPE, stdout=subprocess.PIPE,
                                     stderr=said)
        except OSError as error:
            raise Bad('%s: %s; `tools/build %s` builds it'
                      % (self.program, error.strerror, self.name)) from None
        feed = Feed(data, child.stdin)
        child.stdin = None
        feed.start()
        with child:
            try:
                for answers in cut_between(child.stdout):
                    self.pass_on(answers)
            except Broken:
                child.kill()
                raise
        self.fault = feed.fault
        return child.returncode

    def pass_on(self, answers: bytes) -> None:
        self.output.write(self.show(answers))
        self.answers += len(answers) // ANSWER_BYTES
        self.last = answers[-ANSWER_BYTES:] or self.last


def cut_between(pipe: BufferedReader) -> Iterator[bytes]:
    """What a program prints, as it comes, cut between answers."""
    rest = b''
    while piece := pipe.read1(PIECE):
        rest += piece
        end = len(rest) - len(rest) % ANSWER_BYTES
        yield rest[:end]
        rest = rest[end:]
    yield rest


def main(name: str, work: Callable[[], None]) -> NoReturn:
    """Ends the tool as its work asks."""
    status = 0
    try:
        work()
    except Broken as error:
        status = say(name, error, BROKEN)
    except Bad as error:
        status = say(name, error, inputs.FAILED)
    sys.exit(status)


def say(name: str, error: Exception, status: int) -> int:
    if str(error) and STDERR not in CLOSED:
        with contextlib.suppress(OSError):
            sys.stderr.write('%s: %s\n' % (name, error))
    return status
