"""What the tools over the Python binding share: options, input, the run of a script, endings.

Every tool reads standard input or a file. Input that it cannot use, or output that it cannot
write, ends it with one line on standard error and status 2; so does a standard output, or an input
that is to be read, that is closed.
"""

import argparse
import os
import pathlib
import re
import select
import sys
from collections.abc import Callable, Iterable, Iterator
from io import FileIO
from typing import NamedTuple, NoReturn, TextIO

sys.path.insert(0, str(pathlib.Path(__file__).resolve().parent.parent / 'bindings/python'))

from thymewax import (Answer, Call, Image, LibraryMissing, Model, Refused, SetUp,
                      session, trace)
from thymewax.calls import DIGITS, TRIGGER

# A line that begins so starts a new section. No session takes it for a call.
MARKER = b'---'
COMMENT = b'#'
FAILED = 2
SHOWN_BYTES = 40
# How many bytes are read at a time.
PIECE = 1 << 16

LINES = '''A script has a call in each line, as a session takes it: W offset value, R offset, S, T,
X byte, F code, I address byte, D word word, A; all numbers hex. Empty lines and lines that begin
with # are skipped; a line that begins with --- starts a new section, of at most 64. Any other line
is an error; with --skip it is skipped, as a session does.'''


# What the fields of a letter are called.
FIELDS = {'W': ('offset', 'value'), 'R': ('offset',), 'X': ('byte',), 'F': ('code',),
          'I': ('address', 'byte'), 'D': ('first word', 'second word')}


class Bad(Exception):
    """What is wrong with the input."""


class Parser(argparse.ArgumentParser):
    """Options whose errors are one line, and whose help is output as any other."""

    def error(self, message: str) -> NoReturn:
        raise Bad(message)

    def print_help(self, file: TextIO | None = None) -> None:
        (file or sys.stdout).write(self.format_help())


def parser(tool: str, what: str, more: str = '') -> Parser:
    """The options that every tool has."""
    made = Parser(prog=tool, description=what, epilog=more)
    made.add_argument('file', nargs='?', default='-', metavar='FILE',
                      help='default: standard input')
    return made


def add_skip(options: Parser) -> None:
    options.add_argument('--skip', action='store_true',
                         help='skip lines that are no calls, as a session does')


def add_model(options: Parser) -> None:
    """The options of tools that run a script."""
    add_skip(options)
    options.add_argument('--bursts', action='store_true',
                         help='take a line G as the trigger of an offload burst, with an output of '
                         '16 words; a session has no such line')
    numbers = options.add_argument_group('set-up', "by default that of 01's session")
    for name, default in SetUp._field_defaults.items():
        numbers.add_argument('--' + name.replace('_', '-'), type=int, default=default, metavar='N',
                             help='default: %(default)s')


def pieces(file: FileIO) -> Iterator[bytes]:
    """What a file has, as it comes. One that is not ready is waited for: half a script is no script."""
    while (piece := file.read(PIECE)) != b'':
        if piece is None:
            select.select([file], [], [])
        else:
            yield piece


def read(path: str) -> bytes:
    name = 'standard input' if path == '-' else path
    if path == '-' and sys.stdin is None:
        raise Bad('%s is closed' % name)
    try:
        if path == '-':
            return b''.join(pieces(sys.stdin.buffer.raw))
        with open(path, 'rb') as file:
            return file.read()
    except OSError as error:
        raise Bad('%s: %s' % (name, error.strerror)) from None


def call_in(line: bytes, bursts: bool) -> Call | None:
    if bursts and line == TRIGGER.encode():
        return Call(TRIGGER)
    return session.call_of(line)


def no_call(number: int, line: bytes, bursts: bool = False) -> str:
    """That a line is no call, and which rule of a session's lines it breaks."""
    text = line.decode('latin-1')
    return 'line %d is no call: %s: %s' % (number, shown(text), broken_rule(text, bursts))


def shown(text: str) -> str:
    return ascii(text[:SHOWN_BYTES])


def broken_rule(text: str, bursts: bool) -> str:
    """The first rule that a line breaks which is no call, no comment and not empty."""
    forms = {**DIGITS, TRIGGER: ()} if bursts else DIGITS
    letter, *fields = text.split(' ')
    if '\r' in text:
        return 'a carriage return; a line ends at a newline alone'
    if '\t' in text:
        return 'a tab; one space stands between fields'
    if text[0] == ' ':
        return 'a space before the letter'
    if text[0] not in forms:
        other = text[0].upper()
        return ('the letter %s in lower case' % other if other in forms and letter == text[0]
                else 'no call begins with %s' % shown(text[0]))
    if letter != text[0]:
        return 'no space behind the letter %s' % text[0]
    if '' in fields:
        return 'a space at its end' if text[-1] == ' ' else 'two spaces between fields'
    if len(fields) != len(forms[letter]):
        return 'too %s fields: %s' % (
            'few' if len(fields) < len(forms[letter]) else 'many',
            ' '.join(['%s takes' % letter, ' and '.join(FIELDS.get(letter, ['none']))]))
    named = zip(FIELDS[letter], fields, forms[letter])
    return next(filter(None, (broken_field(*field) for field in named)))


def broken_field(name: str, field: str, digits: int) -> str | None:
    """The rule that a field breaks, if it breaks one."""
    if not re.fullmatch('[0-9a-fA-F]+', field):
        return 'the %s %s is not of hex digits alone' % (name, shown(field))
    if len(field) <= digits:
        return None
    if field[:-digits].strip('0'):
        return 'the %s %s is too large, at most %s' % (name, shown(field), 'f' * digits)
    return 'the %s %s has too many digits, at most %d' % (name, shown(field), digits)


def script_sections(script: bytes, skip: bool, bursts: bool = False) -> list[list[Call]]:
    """The calls of each section of a script."""
    found: list[list[Call]] = [[]]
    for number, line in enumerate(session.lines(script), 1):
        call = call_in(line, bursts)
        if call is not None:
            found[-1].append(call)
        elif line.startswith(MARKER):
            found.append([])
        elif line and not line.startswith(COMMENT) and not skip:
            raise Bad(no_call(number, line, bursts))
    # As many as a trace has, so that a script and its trace are told the same.
    if len(found) > trace.MOST_SECTIONS:
        raise Bad('%d sections, at most %d fit' % (len(found), trace.MOST_SECTIONS))
    return found


def trace_sections(data: bytes) -> list[list[Call]]:
    """The calls of each section of a trace."""
    try:
        parts = trace.sections(data)
    except Refused as error:
        raise Bad('no sound trace: %s' % error) from None
    return [list(right_calls(part, number)) for number, part in enumerate(parts)]


def right_calls(part: memoryview, section: int) -> Iterator[Call]:
    done = 0
    try:
        for call in trace.calls(part):
            yield call
            done += 1
    except Refused as error:
        raise Bad('section %d, record %d: %s' % (section, done, error)) from None


def sections(data: bytes, options: argparse.Namespace) -> list[list[Call]]:
    """The calls of each section of a script or a trace; the mark tells which it is."""
    if trace.is_trace(data):
        return trace_sections(data)
    return script_sections(data, options.skip, options.bursts)


def model(options: argparse.Namespace) -> Model:
    """A fresh model of the chosen set-up."""
    chosen = {name: getattr(options, name) for name in SetUp._fields}
    try:
        return Model.set_up(**chosen)
    except (Refused, ValueError) as error:
        raise Bad('set-up: %s' % error) from None
    except LibraryMissing as error:
        raise Bad(' '.join(str(error).split('\n'))) from None


class Made(NamedTuple):
    """A call that was made: its number from 1, its section, its answer, the images around it and
    the output after it."""

    number: int
    section: int
    call: Call
    answer: Answer
    before: Image
    after: Image
    output: tuple[int, ...]


def run(fresh: Model, parts: Iterable[Iterable[Call]]) -> Iterator[Made]:
    """Makes the calls, one at a time."""
    number, before = 0, fresh.image()
    for section, calls in enumerate(parts):
        for call in calls:
            number += 1
            answer = fresh.make(call)
            after = fresh.image()
            yield Made(number, section, call, answer, before, after, fresh.output())
            before = after


def discard(stream: TextIO) -> None:
    """What is still unwritten would fail again at the exit."""
    os.dup2(os.open(os.devnull, os.O_WRONLY), stream.fileno())


def say(tool: str, text: object) -> None:
    """A line on standard error. Where that cannot be written either, the status alone tells."""
    if sys.stderr is None:
        return
    try:
        sys.stderr.write('%s: %s\n' % (tool, text))
        sys.stderr.flush()
    except OSError:
        discard(sys.stderr)


def status_of(work: Callable[[], int]) -> int:
    """The status of a tool's work, once all its output is written. Python has no stream for a
    descriptor that is closed, and prints to none without a word."""
    if sys.stdout is None:
        raise Bad('standard output is closed')
    try:
        status = work()
    except SystemExit as end:
        # Of --help.
        status = end.code or 0
    sys.stdout.flush()
    return status


def main(tool: str, work: Callable[[], int]) -> NoReturn:
    """Ends the program: with the status of its work, or as bad input asks. A reader that closes
    its end of the output, as head does, is no fault; output that cannot be written is."""
    try:
        status = status_of(work)
    except Bad as error:
        say(tool, error)
        status = FAILED
    except BrokenPipeError:
        discard(sys.stdout)
        status = 0
    except OSError as error:
        say(tool, 'output: %s' % error.strerror)
        discard(sys.stdout)
        status = FAILED
    sys.exit(status)
