"""A call as numbers: the letter of a session's line, an offset and two values (02 section 1)."""

from __future__ import annotations

from collections.abc import Sequence
from typing import NamedTuple

# The letters of a session, and the hex digits of each field of their lines (01): an offset has 4,
# a value or word 8, the rest 2.
DIGITS: dict[str, tuple[int, ...]] = {
    'W': (4, 8), 'R': (4,), 'S': (), 'T': (), 'X': (2,), 'F': (2,), 'I': (2, 2), 'D': (8, 8),
    'A': (),
}
ACCESSES = 'WR'
# The trigger of a burst (02 section 3): a call of the library that no session and no trace has.
TRIGGER = 'G'


class Call(NamedTuple):
    """A call. Accesses have an offset; other arguments fill the values in order; the rest is 0."""

    letter: str
    offset: int = 0
    first: int = 0
    second: int = 0

    @classmethod
    def of(cls, letter: str, fields: Sequence[int]) -> Call:
        """The call of a line's letter and fields."""
        return cls(letter, *(fields if letter in ACCESSES else (0, *fields)))

    @property
    def fields(self) -> tuple[int, ...]:
        """The fields of its line."""
        numbers = self[1:] if self.letter in ACCESSES else self[2:]
        return numbers[:len(DIGITS[self.letter])]

    @property
    def right(self) -> bool:
        """Whether a session and a trace have it: no number above its digits, nothing in a field
        without use."""
        if self.letter not in DIGITS:
            return False
        fits = all(field < 16 ** digits
                   for field, digits in zip(self.fields, DIGITS[self.letter]))
        return fits and self == Call.of(self.letter, self.fields)
