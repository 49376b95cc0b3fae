"""Comparisons that are counted, runs of programs, generated scripts, and how a test ends."""

import os
import subprocess
import sys
from collections import Counter

from tests import ROOT

GENERATE = ROOT / 'tests/scripts/generate.py'
# How many comparisons of each kind there were.
TRIED = Counter()


class Wrong(Exception):
    """What is not as expected."""


def equal(kind, name, got, wanted):
    """Counts a comparison of a kind."""
    TRIED[kind] += 1
    if got != wanted:
        raise Wrong('%s, %s: %r, expected %r' % (kind, name, got, wanted))


def raises(kind, name, error, function, *arguments, **named):
    """The error that a call raises, which must be of a class."""
    TRIED[kind] += 1
    try:
        got = function(*arguments, **named)
    except error as raised:
        return raised
    raise Wrong('%s, %s: %r, expected %s' % (kind, name, got, error.__name__))


def run(command, data=b'', **variables):
    """Status, output and messages of a program."""
    done = subprocess.run([str(word) for word in command], input=data, capture_output=True,
                          check=False, env={**os.environ, 'PYTHONDONTWRITEBYTECODE': '1',
                                            **variables})
    return done.returncode, done.stdout, done.stderr


def tool(name, *arguments, data=b'', **variables):
    return run([sys.executable, ROOT / 'tools' / name, *arguments], data, **variables)


def generated(seed, calls, *more):
    """The script of a seed."""
    status, script, _ = run([sys.executable, GENERATE, seed, calls, *more])
    if status:
        raise Wrong('generate.py: status %d' % status)
    return script


def main(name, parts, *arguments):
    """Runs the parts and ends the program. The last line says what was tried."""
    try:
        for part in parts:
            part(*arguments)
    except Wrong as wrong:
        sys.exit('%s: %s' % (name, wrong))
    print('%s: all as expected: %s' % (name, ', '.join(
        '%s: %d' % pair for pair in TRIED.items())))
