"""The lines of a session (01): which of them are calls, and the line of a call."""

from __future__ import annotations

import re
from collections.abc import Iterator

from .calls import DIGITS, Call

# Hex of either case, one space between fields.
_LINE = re.compile('|'.join(
    letter + ''.join(' [0-9a-fA-F]{1,%d}' % count for count in digits)
    for letter, digits in DIGITS.items()).encode())


def lines(script: bytes) -> list[bytes]:
    """The lines of a script; a newline at its end starts no line."""
    found = script.split(b'\n')
    if not found[-1]:
        found.pop()
    return found


def call_of(line: bytes) -> Call | None:
    """The call that a line names, if it names one."""
    if not _LINE.fullmatch(line):
        return None
    letter, *fields = line.split(b' ')
    return Call.of(letter.decode(), [int(field, 16) for field in fields])


def line_of(call: Call) -> str:
    """The line of a call that is right, with all digits."""
    digits = DIGITS[call.letter]
    return ' '.join([call.letter, *map('{:0{}x}'.format, call.fields, digits)])


def calls(script: bytes) -> Iterator[Call]:
    """The calls of a script. Other lines are skipped, as a session skips them."""
    for line in lines(script):
        call = call_of(line)
        if call is not None:
            yield call
