"""Damages of an image: pairs of a word's place and its number, by kind."""

import itertools

from tests.hosts.image_words import (
    ATTACHED, CAPACITY, CCC_BIT, CLEAR_IN_RESET, COMMANDS, DATA, ENABLE, FLAGS, HEAD, HEADER,
    HEADER_BIT, ID, KIND, LARGEST, LENGTH, LENGTH_BITS, LEVEL, MOST, MOVED, OPS, PART, PHASE, PLACE,
    QUEUES, READ_BIT, WATERMARK)
from tests.scripts.bank import (BURST_LENGTH, CARRIED_LENGTH, LEAST_CAPACITIES, LONGEST,
                                MOST_CAPACITY)
from tests.scripts.source import Source
from thymewax import Command
from thymewax.image import WORDS, Kind, Phase

# Of a part word each number of bytes, and the lowest bit of each byte alone.
PARTS = (0, 0xff000000, 0xffff0000, 0xffffff00, MOST, 1 << 24, 1 << 16, 1 << 8, 1)
RANDOM_DAMAGES = 300


def near(*bounds):
    """Each bound, one less and one more, as far as a word has it."""
    return sorted({number for bound in bounds for number in (bound - 1, bound, bound + 1)
                   if 0 <= number <= MOST})


def edges(image, place):
    """Numbers for a word: those near its bounds, 0, 1, each bit changed, all ones. A flag is a
    byte."""
    now = image[place]
    bits = 8 if place in FLAGS else 32
    queue = place - place % 4
    if place < ID:
        capacity = image[queue + CAPACITY]
        bounds = (1, 2, MOST_CAPACITY, *image[queue:queue + 4]) if place == queue else (capacity,)
    elif place == PLACE:
        bounds = (image[OPS] >> 1 & 0xf, BURST_LENGTH)
    elif place == LENGTH:
        bounds = (image[MOVED], CARRIED_LENGTH, LONGEST)
    elif place == MOVED:
        bounds = (image[LENGTH], CARRIED_LENGTH)
    elif place in COMMANDS:
        bounds = (now & ~LENGTH_BITS | CARRIED_LENGTH << 8, now & ~LENGTH_BITS | 5 << 8)
    else:
        bounds = (LARGEST[place],) if place in LARGEST else ()
    numbers = {*near(*bounds), 0, 1, (1 << bits) - 1, *(now ^ 1 << bit for bit in range(bits))}
    numbers.update(PARTS if place == PART else ())
    return sorted(numbers - {now})


def single(image, turn):
    """One word at its edges: all up to the flags; of the flags and the offload memories those whose
    turn it is, but in a burst all offload commands."""
    places = [*range(PART + 1), *(FLAGS[(4 * turn + number) % len(FLAGS)] for number in range(4)),
              *(COMMANDS if image[PLACE] else [COMMANDS[turn % len(COMMANDS)]]),
              DATA[turn % len(DATA)]]
    for place in places:
        for number in edges(image, place):
            yield [(place, number)]


def grid(columns):
    """Every choice of a number for each of some words."""
    for numbers in itertools.product(*columns.values()):
        yield list(zip(columns, numbers))


def command_of(image):
    """A private command with the open transfer's numbers."""
    return (image[LENGTH] << 8 | (image[HEADER] and HEADER_BIT)
            | (READ_BIT if image[PHASE] == Phase.READING else 0))


def joined_in_queue(queue):
    """The four numbers of a queue, near the capacity that it gets."""
    least = LEAST_CAPACITIES[queue // 4]
    for capacity in near(least, 3, MOST_CAPACITY):
        yield from grid({queue + CAPACITY: [capacity], queue + WATERMARK: near(capacity),
                         queue + HEAD: near(capacity), queue + LEVEL: near(capacity)})


def joined_in_transfer(image):
    moved, length = image[MOVED], image[LENGTH]
    yield from grid({MOVED: near(0, 4, moved, length, LONGEST), LENGTH: near(0, 4, moved, LONGEST)})
    yield from grid({MOVED: {*range(10), length}, PART: PARTS})
    yield from grid({PHASE: range(7), KIND: range(4)})
    yield from grid({PHASE: range(7), KIND: range(4), ATTACHED: range(3), MOVED: (0, 1, 4)})
    yield from grid({ATTACHED: range(3), MOVED: near(0, 4, length)})
    yield from grid({PHASE: range(6), MOVED: range(6), PART: PARTS[:6]})
    yield from grid({PHASE: range(6), KIND: range(3), HEADER: (0, 1), LENGTH: (0, 5), MOVED: (0, 4),
                     ATTACHED: (0, 1), PART: (0,)})


def joined_in_reset(image):
    """ENABLE with what a reset clears: with each word, and with all of them save one."""
    for place in CLEAR_IN_RESET:
        yield from grid({ENABLE: range(3), place: {0, 1, image[place]}})
    cleared = {ENABLE: 1, **dict.fromkeys(CLEAR_IN_RESET, 0)}
    yield list(cleared.items())
    for place in CLEAR_IN_RESET:
        for enable, number in itertools.product((0, 1), {1, image[place]}):
            yield list({**cleared, ENABLE: enable, place: number}.items())


def joined_in_burst(image):
    """The burst with its place, its mode and length, its command there, that command's transfer."""
    speed = image[OPS] & 0x60
    every = [speed | low for low in range(32)]
    yield from grid({PLACE: range(18), OPS: every if image[PLACE] else every[::5]})
    at = COMMANDS[max(image[PLACE], 1) - 1]
    # As the transfer has it, at its place in a burst that is long enough.
    word = command_of(image)
    burst = [(OPS, speed | BURST_LENGTH << 1 | 1), (PLACE, max(image[PLACE], 1)),
             *((place, 0) for place in COMMANDS if place != at)]
    for kind, attached in itertools.product(range(3), range(2)):
        yield [*burst, (at, word), (KIND, kind), (ATTACHED, attached)]
    for bit in range(32):
        yield [*burst, (at, word ^ 1 << bit)]
    # The command with what it says of its transfer.
    for damage in itertools.chain(
            grid({at: (word & ~READ_BIT, word | READ_BIT), PHASE: range(6)}),
            grid({at: (word & ~HEADER_BIT, word | HEADER_BIT), HEADER: range(3)}),
            grid({at: (word, word | CCC_BIT), KIND: range(4)}),
            grid({at: (word & ~LENGTH_BITS | length << 8 for length in range(6)),
                  LENGTH: range(6), MOVED: (0, 1, 4, 5)}),
            grid({PHASE: (1, 2), at: (word & ~READ_BIT, word | READ_BIT), MOVED: range(6),
                  PART: PARTS[:6]})):
        yield damage
        if not image[PLACE]:
            yield burst + damage
    # Another place of the same burst, with the transfer that it has, and one byte more.
    for place in range(1, (image[OPS] >> 1 & 0xf) + 1):
        command = Command.of(image[COMMANDS[place - 1]])
        length = command.length
        yield from grid({PLACE: (place,), KIND: (Kind.PRIVATE,), HEADER: (int(command.header),),
                         PHASE: (Phase.READING if command.read else Phase.WRITING,),
                         LENGTH: (length,), ATTACHED: (0, 1), MOVED: {0, 1, length, length + 1},
                         PART: PARTS[:5]})


def joined(image, turn):
    """The sound image itself first."""
    yield []
    yield from joined_in_queue(QUEUES[turn % len(QUEUES)])
    yield from joined_in_transfer(image)
    yield from joined_in_reset(image)
    yield from joined_in_burst(image)


def at_random(image, turn):
    """Two or three words at edges of theirs."""
    source, numbers = Source(turn), {}
    for _ in range(RANDOM_DAMAGES):
        damage = {}
        for _ in range(2 + source.below(2)):
            place = source.pick([*range(PART + 1)] * 4 + [*range(PART + 1, WORDS)])
            if place not in numbers:
                numbers[place] = edges(image, place)
            damage[place] = source.pick(numbers[place])
        yield list(damage.items())


KINDS = {'one word': single, 'words that a clause joins': joined, 'words at random': at_random}
