"""What can occur in a script: the numbers of each letter, of each register, of each ending.

A script with set-ups and bursts has more of them; `test` says that it is one.
"""

from tests.scripts.bank import LOCKED, MAPPED, PUSHING, READ_ONLY, TAKING, WATERMARKS
from tests.scripts.endings import BURST_ENDINGS, CODES, ENDINGS
from tests.scripts.lines import SET_UP, SHOW
from thymewax import OFFLOAD_CMD, OFFLOAD_SDO, Number, Register
from thymewax.calls import TRIGGER


def named(names):
    return tuple(Number[name] for name in names.split())


# For each letter the numbers that a session can give, by the tests of its rule: `access.order`,
# `start.tests` and so on. A session's bank is sound and its store fits: it has neither 21 nor 22
# (`answer.bank`).
SESSION_PAIRS = {
    'W': named('DONE DROPPED_FULL DROPPED_READ_ONLY NO_REGISTER HELD_IN_RESET '
               'WATERMARK_ABOVE_CAPACITY'),
    'R': named('DONE EMPTY NO_REGISTER'),
    'S': named('DONE HELD_IN_RESET TRANSFER_OPEN NOT_IN_THIS_MODE NO_COMMAND SDO_NOT_EMPTY'),
    'T': named('DONE HELD_IN_RESET NO_TRANSFER NOT_THIS_KIND LENGTH_REACHED SDO_EMPTY '
               'NOT_ATTACHED'),
    'X': named('DONE HELD_IN_RESET NO_TRANSFER NOT_THIS_KIND LENGTH_REACHED NO_ROOM NOT_ATTACHED'),
    'F': named('DONE HELD_IN_RESET NO_TRANSFER NO_ROOM ENDING_NOT_ALLOWED OUT_OF_RANGE'),
    'I': named('DONE HELD_IN_RESET TRANSFER_OPEN NO_ROOM NOT_HEARD NOT_ACKNOWLEDGED OUT_OF_RANGE'),
    'D': named('DONE HELD_IN_RESET NO_TRANSFER NOT_THIS_KIND NO_ROOM'),
    'A': named('DONE HELD_IN_RESET NO_TRANSFER NOT_THIS_KIND SDO_EMPTY WRONG_PARITY'),
}
EVENTS = 'STXFIDA' + TRIGGER
# A refused set-up makes every later call 21 (`set-up.refused`), but no line lends another store. A
# burst adds 13 to every event (`burst.output`), 6 to a write (`burst.holds`), and the trigger. SHOW
# is no call of the bank.
TEST_PAIRS = {**{letter: numbers + (Number.NOT_WELL_FORMED,)
                 for letter, numbers in SESSION_PAIRS.items()},
              TRIGGER: named('DONE HELD_IN_RESET TRANSFER_OPEN NOT_IN_THIS_MODE NOT_WELL_FORMED '
                             'BURST_HAS_NO_COMMANDS NOT_CARRIED'),
              SHOW: named('DONE'), SET_UP: named('DONE SET_UP_OUT_OF_RANGE')}
TEST_PAIRS.update({letter: TEST_PAIRS[letter] + (Number.NO_ROOM,) for letter in EVENTS})
TEST_PAIRS['W'] += (Number.TRANSFER_OPEN,)


def pairs(test):
    return TEST_PAIRS if test else SESSION_PAIRS


# Accesses.

OUTSIDE = ('not in the map', 'not a multiple of 4')


def short_name(register):
    """The name of a register in the table of accesses."""
    name = register.name
    for long, short in (('_FIFO_ROOM', ' room'), ('_FIFO_LEVEL', ' level'), ('_FIFO', ''),
                        ('_WATERMARK', ' watermark'), ('DEVICE_ID', 'ID')):
        name = name.replace(long, short)
    return name


NAMES = {
    **{register: short_name(register) for register in Register},
    **{offset: 'offload command %d' % place for place, offset in enumerate(OFFLOAD_CMD)},
    **{offset: 'offload data %d' % place for place, offset in enumerate(OFFLOAD_SDO)},
}


def name_at(offset):
    """The name of the register at an offset, or why none is there."""
    return NAMES.get(offset) or OUTSIDE[offset % 4 != 0]


def write_numbers(offset, held, test):
    """Possible numbers of a write to a register (`access.order`)."""
    if test and not held and offset in LOCKED:
        return named('DONE TRANSFER_OPEN')
    if offset in READ_ONLY:
        return named('DROPPED_READ_ONLY')
    if offset in PUSHING:
        return named('HELD_IN_RESET') if held else named('DONE DROPPED_FULL')
    if offset in WATERMARKS:
        return named('DONE WATERMARK_ABOVE_CAPACITY')
    return named('DONE')


def read_numbers(offset, held):
    """Possible numbers of a read from a register. In reset queues are empty (`formed.reset`)."""
    if offset in TAKING:
        return named('EMPTY') if held else named('DONE EMPTY')
    return named('DONE')


def accesses(test):
    """All (letter, register, held, number)."""
    wanted = []
    for held in (True, False):
        for offset in MAPPED:
            name = NAMES[offset]
            wanted += [('W', name, held, int(number))
                       for number in write_numbers(offset, held, test)]
            wanted += [('R', name, held, int(number)) for number in read_numbers(offset, held)]
        wanted += [(letter, name, held, int(Number.NO_REGISTER))
                   for name in OUTSIDE for letter in 'WR']
    return wanted


# Endings (`finish.tests`).

def endings():
    """All (kind, state, code, number)."""
    wanted = []
    for kind, states in ENDINGS.items():
        for state, allowed in states.items():
            for code in CODES:
                numbers = named('DONE NO_ROOM' if code in allowed else 'ENDING_NOT_ALLOWED')
                wanted += [(kind, state, code, int(number)) for number in numbers]
    return wanted


def burst_endings():
    """All (kind, state, code, number). An allowed code needs no room (`burst.events`)."""
    return [(kind, state, code, int(Number.DONE if code in allowed else Number.ENDING_NOT_ALLOWED))
            for kind, states in BURST_ENDINGS.items() for state, allowed in states.items()
            for code in CODES]
