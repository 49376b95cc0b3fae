"""The lines of scripts: letters, the digits of their fields, which lines are calls
(`session.lines`), and which a script with set-ups and bursts has besides.

    B and eleven numbers    a set-up
    G                       the trigger of a burst
    P and a place           shows a word of the output
    O and a count           lends so many words of the output to the events; no answer
"""

import re

from thymewax.calls import DIGITS, TRIGGER
from thymewax.session import lines as script_lines

SET_UP, LEND, SHOW = 'B', 'O', 'P'
# The most digits of each field, by letter. Fields of one width are written alike.
OFFSET, WORD, BYTE, DIGIT = 4, 8, 2, 1
TEST_DIGITS = {**DIGITS, TRIGGER: (), LEND: (BYTE,), SHOW: (DIGIT,)}
ALL_DIGITS = {**TEST_DIGITS, SET_UP: (WORD,) * 11}
SESSION_SET_UP = b'B 4 4 4 4 4 1 3 1 3 3 0'

HEX = '[0-9a-fA-F]'


def line_pattern(letters):
    """Matches the lines of some letters."""
    return re.compile('|'.join(
        letter + ''.join(' %s{1,%d}' % (HEX, width) for width in ALL_DIGITS[letter])
        for letter in letters).encode())


SESSION_CALL = line_pattern(DIGITS)
TEST_CALL = line_pattern([letter for letter in ALL_DIGITS if letter != LEND])
# Lends up to sixteen words.
LENDING = re.compile(('%s (0?%s|10)' % (LEND, HEX)).encode())


def call_pattern(test):
    """Matches the lines that have an output line."""
    return TEST_CALL if test else SESSION_CALL


def call_lines(data, test):
    """The calls of a script with their line numbers."""
    matches = call_pattern(test).fullmatch
    return [(number, line) for number, line in enumerate(script_lines(data), 1) if matches(line)]


def split(line):
    """Letter and numbers of a line that is a call."""
    letter, *fields = line.split(b' ')
    return letter.decode(), [int(field, 16) for field in fields]


def lent(line):
    """How many words a line lends; None if it lends none."""
    return int(line[2:], 16) if LENDING.fullmatch(line) else None
