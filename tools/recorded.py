"""A bench's recording of what it read, and where a model differs from it first.

A recording has one line for each read, its value in hex, or one for each call, as a session prints
it: the value, a space, the number.
"""

import re

from inputs import Bad, Made
from thymewax import Number, session

VALUE = re.compile(r'(?:0x)?([0-9a-f]{1,8})', re.IGNORECASE)
ANSWER = re.compile(r'([0-9a-f]{8} [0-9]{2})', re.IGNORECASE)


def matched(lines: list[str], pattern: re.Pattern[str]) -> list[str]:
    """What the lines hold, all of one form."""
    found = []
    for number, line in enumerate(lines, 1):
        match = pattern.fullmatch(line)
        if not match:
            raise Bad('recording, line %d: %s' % (number, ascii(line[:40])))
        found.append(match[1].lower())
    return found


class Recording:
    """The lines of a recording, compared with the calls as they are made. `difference` is the
    first one in words."""

    def __init__(self, data: bytes) -> None:
        lines = [line.rstrip() for line in data.decode('latin-1').splitlines()]
        self.of_calls = any(' ' in line for line in lines)
        if self.of_calls:
            self.lines = matched(lines, ANSWER)
        else:
            self.lines = ['%08x' % int(value, 16) for value in matched(lines, VALUE)]
        self.seen = 0
        self.difference = ''

    @property
    def unit(self) -> str:
        return 'answers' if self.of_calls else 'reads'

    def follow(self, made: Made, why: str) -> bool:
        """Compares a call; says whether the first difference is here. `why` tells of a call that was
        not done; of an empty queue it says where the model's value is from."""
        if self.difference or not (self.of_calls or made.call.letter == 'R'):
            return False
        ours = str(made.answer) if self.of_calls else '%08x' % made.answer.value
        if self.seen == len(self.lines):
            theirs = 'ends after %d %s' % (self.seen, self.unit)
        else:
            theirs = 'has ' + self.lines[self.seen]
        self.seen += 1
        if theirs == 'has ' + ours:
            return False
        self.difference = 'call %d, %s: the model has %s, the recording %s%s' % (
            made.number, session_line(made), ours, theirs,
            '; ' + why if made.answer.number == Number.EMPTY else '')
        return True

    def end(self) -> None:
        """After the last call."""
        if not self.difference and self.seen < len(self.lines):
            self.difference = 'after the last call: the recording has %d %s more' % (
                len(self.lines) - self.seen, self.unit)


def session_line(made: Made) -> str:
    """The call as a session's line; the trigger has none but its letter."""
    return session.line_of(made.call) if made.call.right else made.call.letter
