"""Sound images of all kinds: those that scripts of calls lead to, and what is told of each."""

import itertools

from tests.hosts.image_words import (CCC_BIT, ENABLE, FLAGS, HEADER_BIT, PLACE, QUEUES, READ_BIT,
                                      SCRATCH)
from tests.scripts.bank import BURST_LENGTH, LEAST_CAPACITIES
from tests.scripts.lines import SET_UP, lent, line_pattern, split
from tests.shared.trial import generated
from thymewax import OFFLOAD_CMD, Call, Command, Model, Refused, SetUp, session
from thymewax.image import Kind, Phase

SEEDS = (1, 2, 3)
CALLS = 16000
SET_UP_LINE = line_pattern(SET_UP)
# Set-ups at the edges of their ranges.
SET_UPS = (SetUp(*LEAST_CAPACITIES, *[0] * 5), SetUp(*LEAST_CAPACITIES, *LEAST_CAPACITIES, 255),
           SetUp(*[1024] * 5, *[1024] * 5, 255), SetUp(2, 3, 5, 7, 9, 1, 0, 5, 2, 4, 128))


def scripted(seed):
    """The images that a generated script leads to, each after a call."""
    model = Model.set_up()
    for line in session.lines(generated(seed, CALLS, '--test')):
        output = lent(line)
        call = Call('G') if line == b'G' else session.call_of(line)
        if output is not None:
            model.lend(output)
        elif SET_UP_LINE.fullmatch(line):
            try:
                model = Model.set_up(**SetUp(*split(line)[1])._asdict())
            except Refused:
                continue
            yield model.image()
        elif call is not None and model.make(call).done:
            yield model.image()


def walked(model, lines):
    """The image after each line."""
    for line in lines:
        model.make(Call('G') if line == b'G' else session.call_of(line))
        yield model.image()


def opened():
    """Every kind of direct transfer, byte by byte; ENTDAA through its phases."""
    codes = {'private': [], 'direct': [b'W d4 81'], 'broadcast': [b'W d4 1'], 'ENTDAA': [b'W d4 7']}
    for (kind, code), header, read, device in itertools.product(
            codes.items(), (0, HEADER_BIT), (0, READ_BIT), (8, 9)):
        word = header | read | device << 1 | 5 << 8 | (kind != 'private' and CCC_BIT)
        data = [b'W dc a1b2c3d4', b'W dc e5f60718'] if kind != 'ENTDAA' else []
        moves = [b'X ff' if read else b'T'] * 5
        if kind == 'ENTDAA':
            moves = [b'D 1 2', b'W dc 10000000', b'A', b'D 3 4']
        yield from walked(Model.set_up(), [b'W 40 0', b'W 180 1102', *data, b'W d4 %x' % word,
                                           *code, b'S', *moves])


def in_bursts():
    """The longest burst, twice, so that each of its places has a read and a write; byte by byte."""
    for first in (0, 1):
        model = Model.set_up()
        commands = [0x10 | (place + first) % 2 | place % 5 << 8 | (place % 3 // 2 and HEADER_BIT)
                    for place in range(BURST_LENGTH)]
        yield from walked(model, [b'W 40 0', b'W 180 1102', b'W 100 1f', *(
            b'W %x %x' % (offset, word) for offset, word in zip(OFFLOAD_CMD, commands)), b'G'])
        for word in commands:
            move = b'X a5' if word & READ_BIT else b'T'
            yield from walked(model, [move] * Command.of(word).length + [b'F 0'])


def filled(numbers):
    """A bank of a set-up: fresh, released, each queue filled to its end and moved on, reset."""
    model = Model.set_up(**numbers._asdict())
    yield model.image()
    yield from walked(model, [b'W 40 0', b'W 140 3', b'W 80 ff', b'W 8 ffffffff', b'W 180 110e'])
    write, read = ([b'W d4 %x' % (0x410 | bit), b'S', *[move] * 4, b'F 0']
                   for bit, move in ((0, b'T'), (READ_BIT, b'X a5')))
    for count, lines in (
            (numbers.ibi, [b'I 8 5a']), (numbers.cmdr, [b'W d4 0', b'S', b'F 8']), (1, [b'R d8']),
            (numbers.sdi, [*read, b'R d8']), (1, [b'R e0', b'R e4', *read, b'I 8 5b']),
            (numbers.sdo, [b'W dc 01020304']), (1, [b'R d8', *write, b'W dc 05060708']),
            (numbers.cmd, [b'W d4 410']), (1, [b'S', b'W d4 410', b'T']), (1, [b'W 40 1'])):
        *_, image = walked(model, lines * count)
        yield image


def traits(image):
    """What is told of an image to choose from many."""
    place, transfer = image[PLACE], image.transfer
    yield 'registers', image.held, any(image[SCRATCH:ENABLE]), any(image[FLAGS[0]:])
    yield 'capacities', tuple(ring.capacity for ring in image.rings)
    yield 'pending', image.pending
    for queue, ring in zip(QUEUES, image.rings):
        for state, level in (('empty', 0), ('full', ring.capacity)):
            if ring.level == level:
                yield 'queue', queue, state
                yield 'queue', queue, state, ring.head > 0
        yield 'queue', queue, 'wrapped', ring.head + ring.level > ring.capacity
    yield ('transfer', transfer.phase, transfer.kind, transfer.attached, place > 0,
           transfer.moved % 4, transfer.moved == transfer.length)
    yield 'part', transfer.phase, place > 0, transfer.moved % 4
    yield 'kind', transfer.phase, transfer.kind, transfer.attached
    yield 'header', transfer.phase, place > 0, transfer.header
    yield 'burst', place, transfer.phase
    yield 'last read', *map(bool, image.latest)


PAYLOAD = (Phase.WRITING, Phase.READING)
WANTED = {
    *(('queue', queue, state) for queue in QUEUES for state in ('empty', 'full')),
    *(('part', phase, burst, bytes_) for phase in PAYLOAD for burst in (False, True)
      for bytes_ in range(4)),
    *(('kind', phase, kind, attached) for phase in PAYLOAD for kind in Kind
      for attached in (False, True) if attached or kind != Kind.BROADCAST_CCC),
    *(('kind', phase, Kind.BROADCAST_CCC, True) for phase in Phase
      if phase > Phase.READING),
    *(('header', phase, burst, header) for phase in PAYLOAD for burst in (False, True)
      for header in (False, True)),
    *(('burst', place + 1, phase) for place in range(BURST_LENGTH) for phase in PAYLOAD),
    ('burst', 0, Phase.IDLE),
    *(('last read', *words) for words in itertools.product((False, True), repeat=3)),
    *(('registers', held, True, True) for held in (False, True)),
    *(('capacities', numbers[:5]) for numbers in (SetUp(), *SET_UPS)),
}
