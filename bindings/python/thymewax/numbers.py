"""What comes back: the value and number of a call, and what each number means."""

from __future__ import annotations

from enum import IntEnum
from typing import NamedTuple


class Number(IntEnum):
    """The numbers by the names of include/thymewax.h."""

    DONE = 0
    DROPPED_FULL = 1
    DROPPED_READ_ONLY = 2
    EMPTY = 3
    NO_REGISTER = 4
    HELD_IN_RESET = 5
    TRANSFER_OPEN = 6
    NO_TRANSFER = 7
    NOT_IN_THIS_MODE = 8
    NO_COMMAND = 9
    NOT_THIS_KIND = 10
    LENGTH_REACHED = 11
    SDO_EMPTY = 12
    NO_ROOM = 13
    ENDING_NOT_ALLOWED = 14
    SDO_NOT_EMPTY = 15
    NOT_HEARD = 16
    NOT_ACKNOWLEDGED = 17
    OUT_OF_RANGE = 18
    WRONG_PARITY = 19
    NOT_ATTACHED = 20
    NOT_WELL_FORMED = 21
    STORE_LENGTH = 22
    SET_UP_OUT_OF_RANGE = 23
    WRONG_MARK = 24
    WRONG_TABLE = 25
    NO_SUCH_SECTION = 26
    WRONG_RECORD = 27
    BURST_HAS_NO_COMMANDS = 28
    NOT_CARRIED = 29
    WATERMARK_ABOVE_CAPACITY = 30


# By number, in the words of docs/ANSWERS.md.
MEANINGS = (
    'done',
    'a word written to a full CMD or SDO was dropped',
    'a write to a read-only register was dropped',
    'the queue that was read is empty',
    'no register there',
    'held in reset',
    'a transfer is open',
    'no transfer is open',
    'not in this mode',
    'no whole command waits',
    'not with this transfer, or not now',
    'commanded length reached',
    'SDO is empty',
    'no room in the receiving queue or in the output',
    'ending not allowed here',
    'SDO not empty at the start of ENTDAA',
    'interrupt request not heard',
    'interrupt request not acknowledged',
    'argument out of range',
    'the address word had a wrong parity bit',
    "the transfer's device is not attached",
    'the bank is not well formed',
    'the store has another length',
    'a set-up number is out of range',
    "the trace's mark is wrong",
    "the trace's table or length is wrong",
    'the trace has no such section',
    'a record of the trace is wrong',
    'the burst has no commands',
    'a command of the burst is not carried',
    "a watermark above its queue's capacity was dropped",
)


class Answer(NamedTuple):
    """What a call gives. It is true exactly where the call was done: its number is 0. As text it is
    a session's line."""

    value: int
    number: int

    def __bool__(self) -> bool:
        return self.number == Number.DONE

    def done(self) -> Answer:
        """The answer itself, where the call was done. Refused with its number where it was not, 19
        too."""
        if not self:
            raise Refused(self.number)
        return self

    @property
    def refused(self) -> bool:
        """Whether the call changed nothing: any number but 0 and 19."""
        return self.number not in (Number.DONE, Number.WRONG_PARITY)

    @property
    def meaning(self) -> str:
        return MEANINGS[self.number]

    def __str__(self) -> str:
        return '%08x %02d' % self


class Refused(Exception):
    """A set-up or a trace that is refused, or a call that was not done; `number` says why."""

    def __init__(self, number: int) -> None:
        super().__init__('%d: %s (%s)' % (number, MEANINGS[number], Number(number).name))
        self.number = number
