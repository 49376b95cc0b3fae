#!/usr/bin/env python3
"""Holds docs/registers.svd to tools/svd.py, to itself and to a session program.

    svd.py PROGRAM

The file must be what tools/svd.py writes, byte for byte, well-formed, in the schema's order, its
offsets and their fields without overlap. PROGRAM must then agree with it: on reset values, on the
bits that can be written, on read-only and write-only registers, on all 65,536 offsets, and in
sessions whose words are put together from the file's offsets, fields and names for numbers, so that
a field at a wrong place gives a wrong answer. Exit status 0 only if all of it holds, 1 if not, 2 for
wrong arguments.
"""

import pathlib
import subprocess
import sys
import tempfile
import xml.etree.ElementTree as ElementTree

sys.path.insert(0, str(pathlib.Path(__file__).resolve().parents[2]))

from tests import ROOT
from tests.tools.map import registers as every_register
from tests.tools.map import sources, transfers
from tests.tools.map.file import OFFSETS, Checks, check_file
from thymewax import Answer

TOOL = ROOT / 'tools/svd.py'
FILE = ROOT / 'docs/registers.svd'

# An edit of the table that the tool follows, and one that it refuses.
TABLE = ROOT / 'docs/registers.toml'
EDITS = (('offset = 0x100', 'offset = 0x104', True), ('offset = 0x100', 'offset = 0x0e8', False))
SHOWN = 20


# The tool.

def written_by_tool(*arguments):
    """The tool's exit status, output and messages."""
    done = subprocess.run([sys.executable, '-B', TOOL, *arguments], capture_output=True,
                          check=False)
    return done.returncode, done.stdout, done.stderr


def check_tool(checks, text):
    """The tool writes the file, another one for another table, and nothing for a wrong one."""
    checks.holds(written_by_tool() == (0, text, b''),
                 'docs/registers.svd is not what tools/svd.py writes')
    source = TABLE.read_text(encoding='utf-8')
    for old, new, taken in EDITS:
        checks.holds(source.count(old) == 1, '%r does not stand once in the table' % old)
        with tempfile.NamedTemporaryFile('w', encoding='utf-8') as edited:
            edited.write(source.replace(old, new))
            edited.flush()
            status, output, message = written_by_tool('--table', edited.name)
        if taken:
            right = status == 0 and output not in (b'', text)
        else:
            # A message of the tool's own, not a trace of where it fell.
            right = status == 1 and not output and message.startswith(b'svd: ')
        checks.holds(right, 'tools/svd.py with %r: exit status %d' % (new, status))


# The program.

def sessions(registers):
    """Every session as its name and its steps."""
    yield from every_register.sessions(registers)
    for made in (*transfers.SESSIONS, *sources.SESSIONS):
        yield made.__name__, made(registers)


def answers(program, steps):
    """What a program prints for the lines of a session."""
    script = ''.join(step.line + '\n' for step in steps).encode()
    done = subprocess.run([program], input=script, stdout=subprocess.PIPE, check=False)
    if done.returncode:
        raise ValueError('exit status %d' % done.returncode)
    return done.stdout.decode().split('\n')[:-1]


def check_session(checks, program, name, steps):
    given = answers(program, steps)
    checks.holds(len(given) == len(steps),
                 '%s: %d answers to %d lines' % (name, len(given), len(steps)))
    for step, answer in zip(steps, given):
        expected = str(Answer(step.value, step.number))
        checks.holds(answer == expected,
                     '%s: %s: %s, by the file %s' % (name, step.line, answer, expected))


def check_all(checks, program, text):
    """The file, then the program against it. What cannot be read ends the checks."""
    try:
        registers = check_file(checks, text)
        for name, steps in sessions(registers):
            check_session(checks, program, name, steps)
    except (ElementTree.ParseError, AttributeError, KeyError, TypeError, ValueError) as error:
        checks.holds(False, 'cannot go on: %s: %s' % (type(error).__name__, error))


def main():
    if len(sys.argv) != 2:
        print('usage: svd.py PROGRAM', file=sys.stderr)
        sys.exit(2)
    checks = Checks()
    with open(FILE, 'rb') as file:
        text = file.read()
    check_tool(checks, text)
    try:
        check_all(checks, sys.argv[1], text)
    except OSError as error:
        checks.holds(False, '%s: %s' % (sys.argv[1], error))
    if checks.wrong:
        print('\n'.join('svd: ' + line for line in checks.wrong[:SHOWN]))
        print('svd: %d of %d checks failed' % (len(checks.wrong), checks.count))
        sys.exit(1)
    print('svd: %d offsets, %d checks, no difference' % (OFFSETS, checks.count))


if __name__ == '__main__':
    main()
