"""The situations that scripts must reach, by the names under which they are counted."""

from tests.scripts.bank import (BURST_LENGTH, CARRIED_LENGTH, LEAST_CAPACITIES, OUTPUT_WORDS,
                                QUEUES, SESSION_CAPACITIES, TAKING_QUEUES, TEST_CAPACITIES,
                                WATERMARKS)
from tests.scripts.endings import CE2, ENDINGS, NACK, NO_ERROR, NONE_MOVED, UNKNOWN, UNSENT
from tests.scripts.reached.possible import EVENTS
from thymewax import Irq, Number
from thymewax.calls import TRIGGER


def orders(letter, *names):
    """Pairs of numbers, one before the other, as orders of a letter."""
    return tuple((letter, *(Number[name] for name in pair.split(' before '))) for pair in names)


# Calls in which two conditions hold at once, so that the order decides (`answer.order`). Not in the
# list: orders that a row of another table shows (2 before 5 in the accesses, 18 in the situations,
# 5 before 7 in each event in reset), pairs that cannot hold at once (1 and 5, as the levels are 0
# in reset; 9 and 15), and 7, after which the conditions speak of a transfer that is not there.
ORDERS = (
    *orders('S', 'TRANSFER_OPEN before NOT_IN_THIS_MODE', 'TRANSFER_OPEN before NO_COMMAND',
            'NOT_IN_THIS_MODE before NO_COMMAND'),
    *orders('T', 'NOT_ATTACHED before NOT_THIS_KIND', 'NOT_THIS_KIND before LENGTH_REACHED',
            'LENGTH_REACHED before SDO_EMPTY'),
    *orders('X', 'NOT_ATTACHED before NOT_THIS_KIND', 'NOT_THIS_KIND before LENGTH_REACHED',
            'LENGTH_REACHED before NO_ROOM'),
    *orders('F', 'ENDING_NOT_ALLOWED before NO_ROOM'),
    *orders('I', 'TRANSFER_OPEN before NOT_HEARD', 'NOT_HEARD before NOT_ACKNOWLEDGED',
            'NOT_HEARD before NO_ROOM', 'NOT_ACKNOWLEDGED before NO_ROOM'),
    *orders('D', 'NOT_THIS_KIND before NO_ROOM'),
    *orders('A', 'NOT_THIS_KIND before SDO_EMPTY'),
)
# The same in an open burst whose output is too short, so that 13 is given or 18 goes before it.
SHORT_ORDERS = (
    *orders('S', 'NO_ROOM before TRANSFER_OPEN'),
    *orders(TRIGGER, 'NO_ROOM before TRANSFER_OPEN'),
    *orders('I', 'NO_ROOM before TRANSFER_OPEN'),
    *orders('T', 'NO_ROOM before NOT_ATTACHED', 'NO_ROOM before NOT_THIS_KIND',
            'NO_ROOM before LENGTH_REACHED'),
    *orders('X', 'NO_ROOM before NOT_ATTACHED', 'NO_ROOM before NOT_THIS_KIND',
            'NO_ROOM before LENGTH_REACHED'),
    *orders('F', 'NO_ROOM before ENDING_NOT_ALLOWED'),
    *orders('D', 'NO_ROOM before NOT_THIS_KIND'),
    *orders('A', 'NO_ROOM before NOT_THIS_KIND'),
    *orders('F', 'OUT_OF_RANGE before NO_ROOM'),
    *orders('I', 'OUT_OF_RANGE before NO_ROOM'),
)
TRIGGER_ORDERS = orders(
    TRIGGER, 'HELD_IN_RESET before NOT_IN_THIS_MODE',
    'HELD_IN_RESET before BURST_HAS_NO_COMMANDS', 'HELD_IN_RESET before NOT_CARRIED',
    'TRANSFER_OPEN before NOT_IN_THIS_MODE', 'TRANSFER_OPEN before BURST_HAS_NO_COMMANDS',
    'TRANSFER_OPEN before NOT_CARRIED', 'TRANSFER_OPEN before NO_ROOM',
    'NOT_IN_THIS_MODE before BURST_HAS_NO_COMMANDS', 'NOT_IN_THIS_MODE before NOT_CARRIED',
    'NOT_IN_THIS_MODE before NO_ROOM', 'NOT_CARRIED before NO_ROOM')
ALL_ORDERS = {*ORDERS, *SHORT_ORDERS, *TRIGGER_ORDERS}

BITS = range(8)
PENDING_BITS = [bit.bit_length() - 1
                for bit in (Irq.CMDR_PENDING, Irq.IBI_PENDING, Irq.DAA_PENDING)]
PHASES = IN_RESET, IDLE, TRANSFER_OPEN = 'in reset', 'idle', 'transfer open'

# Failed writes (`finish.removal`), by kind and code: the words in SDO against those that the length
# needs, and which words leave.
SDO_HAS = SDO_HAS_FEWER, SDO_HAS_ALL, SDO_HAS_MORE = (
    'SDO has fewer words', 'SDO has all words', 'SDO has more words')
ROUND_THE_END, AFTER_THE_START = 'words round the end', 'words queued after the start'


def failed_write(kind, code):
    return '%s, code %d, ' % (kind, code)


FAILED_WRITES = [failed_write(kind, code) + case
                 for kind, states in ENDINGS.items() if 'write' in kind
                 for code in states[NONE_MOVED] if code in UNSENT
                 for case in (*SDO_HAS, ROUND_THE_END, AFTER_THE_START)]

# Reads of an empty queue (`take.empty`). First those that show a word: once and again; with other
# words about, in another queue, in the output of a burst, in the store. Then refusals that show
# none of the words that were read. Last those before a word was read since a reset or a set-up:
# what was read earlier may still stand in the store, at both ends of the queue's part.
SHOWN, AGAIN = ' empty, shows the word read last', ' empty again, shows the same word'
AFTER_ANOTHER = ' empty, another queue read since'
AFTER_A_BURST = ' empty, a burst has read since'
ANOTHER_AT_HEAD = ' empty, wrapped, another word at the head'
WRITTEN_TO, BESIDE = ' written to, a word read before', ' beside its offset, a word read before'
REFUSED_BANK = ' read after a refused set-up, a word read before'
BY_RESET, BY_SET_UP = 'reset', 'set-up'
NEVER_READ, OLD_WORDS = 'no word read yet', ', old words in the store'
READ_QUEUES = [QUEUES[queue] for queue in TAKING_QUEUES.values()]


def empty_before_words(queue, held):
    return '%s empty, %s, ' % (queue, 'in reset' if held else 'released')


def read_before(began):
    return 'a word read before the ' + began


EMPTY_READS = (
    [queue + case for queue in READ_QUEUES
     for case in (SHOWN, AGAIN, AFTER_ANOTHER, ANOTHER_AT_HEAD, WRITTEN_TO, BESIDE)]
    + [empty_before_words(queue, held) + case for queue in READ_QUEUES for held in (True, False)
       for case in (NEVER_READ, read_before(BY_RESET), read_before(BY_RESET) + OLD_WORDS)]
)
# With set-ups and bursts. A queue of one word has its last word at the head.
SET_UP_EMPTY_READS = (
    ['%s of %d empty, wrapped' % (queue, size) for queue in READ_QUEUES for size in TEST_CAPACITIES
     if size >= LEAST_CAPACITIES[QUEUES.index(queue)]]
    + [queue + case for queue in READ_QUEUES
       for case in (SHOWN, AGAIN, ANOTHER_AT_HEAD, REFUSED_BANK)]
    + [empty_before_words(queue, held) + read_before(began) + OLD_WORDS for queue in READ_QUEUES
       for held in (True, False) for began in (BY_RESET, BY_SET_UP)]
    + ['SDI' + AFTER_A_BURST]
)

# Watermarks that are written (`watermark.keeps`): each value that counts in each phase, what is
# read then, and the sources, as they are read before and after a write and nothing else.
NONE, MOST, ABOVE, WITH_HIGH_BITS = '0', 'of the capacity', 'one above refused', 'with bits 31:16'
READ_AS_SET_UP, READ_AS_WRITTEN = ' watermark read as set up', ' watermark read as written'
LEFT, LOW_BYTE_FITS = ' watermark read, one refused since', ' watermark refused, its low byte fits'
BURST_OPEN = 'burst open'
# Offsets without a register: in the middle of the first word, and behind the last.
MISSES = (WATERMARKS[0] + 2, WATERMARKS[-1] + 4)
# Queues whose level is a source while it is small: so in reset too.
ALMOST_EMPTY = ('CMD', 'SDO')


def mark_written(queue, value, phase):
    return '%s watermark %s, %s' % (queue, value, phase)


def mark_kept(queue, held):
    return '%s watermark kept over a reset, %s' % (queue, 'in reset' if held else 'released')


def mark_switches(queue, on, held):
    return '%s watermark turns its source %s, %s' % (queue, 'on' if on else 'off',
                                                     'in reset' if held else 'released')


def mark_miss(letter, offset):
    return '%s at %04x: 4' % (letter, offset)


def pending_stays(queue, bit):
    return '%s watermark written, bit %d stays 1' % (queue, bit)


def watermarks(phases):
    return ([mark_written(queue, value, phase) for queue in QUEUES for phase in phases
             for value in (NONE, MOST, ABOVE, WITH_HIGH_BITS)]
            + [queue + case for queue in QUEUES
               for case in (READ_AS_SET_UP, READ_AS_WRITTEN, LEFT, LOW_BYTE_FITS)]
            + [mark_kept(queue, held) for queue in QUEUES for held in (True, False)]
            + [mark_switches(queue, on, held) for queue in QUEUES for on in (True, False)
               for held in (True, False) if not held or queue in ALMOST_EMPTY]
            + [pending_stays(queue, bit) for queue in QUEUES for bit in PENDING_BITS]
            + [mark_miss(letter, offset) for letter in 'RW' for offset in MISSES]
            + ['write: 4 before 30'])


SESSION_SITUATIONS = (
    ['%s full with head at %d' % (queue, head)
     for queue, size in zip(QUEUES, SESSION_CAPACITIES) for head in range(size)]
    + ['reset during ' + kind for kind in ENDINGS]
    + ['reset with bytes gathered', 'reset with bytes left', 'reset with a request open',
       'reset in reset', 'release when released, transfer open']
    + ['interrupt during ' + kind for kind in ENDINGS]
    + ['interrupt above 127, ' + phase for phase in PHASES]
    + ['finish code above 15, ' + phase for phase in PHASES]
    + ['interrupt not heard, enable 0', 'interrupt not heard, enable 1',
       'interrupt not acknowledged, enable 0', 'interrupt not acknowledged, not attached',
       'interrupt not acknowledged, may not interrupt', 'interrupt, IBI full',
       'interrupt stored with its byte', 'interrupt stored with 0',
       'interrupt stored in offload mode']
    + ['receipt number above 256', 'interrupt number above 256', 'write of 4,095 bytes',
       'read of 4,095 bytes']
    + ['wrong parity, SDO then empty', 'wrong parity, SDO not empty',
       'address request, SDO empty', 'address request, SDO not empty',
       'address request, SDI room 1', 'address request, SDI room 0',
       'address request while one is open', 'address take with none open',
       'address take, SDO empty', 'address taken',
       'ENTDAA ended with 4 after a refused request']
    + ['no whole command, CMD empty', 'no whole command, CCC word alone']
    + ['ENTDAA with length above 0', 'ENTDAA with the read bit', 'direct CCC with code 0x87']
    + ['byte moved, device detached since start', 'byte refused, device attached since start']
    + ['finish, no room in CMDR', 'finish, no room in SDI for a part word',
       'finish, no room in both', 'finish, part word pushed', 'finish, bytes left dropped',
       'finish, data stays in SDO', 'finish in offload mode']
    + FAILED_WRITES + ['failed write, no room for its receipt, SDO not empty']
    + ['%s ended with %d, data stays in SDO' % (kind, code)
       for kind in ('read', 'write of no bytes') for code in UNSENT]
    + ['ENTDAA ended with %d, data stays in SDO' % CE2]
    + ['length reached at 0', 'length reached after bytes', 'SDO empty at the first byte',
       'SDO empty at a later word', 'no room at the fourth byte']
    + ['%s: %d before %d' % order for order in ORDERS]
    + ['source bit %d read as %d' % (bit, value) for bit in BITS for value in (0, 1)]
    + ['pending bit %d read as 1' % bit for bit in BITS]
    + ['bit %d cleared by a write' % bit for bit in PENDING_BITS]
    + EMPTY_READS + watermarks(PHASES)
)

# What each of the 128 device addresses must have been used for.
ADDRESS_USES = COMMAND_TO, INTERRUPT_FROM = 'command to', 'interrupt from'

# Situations that a script with set-ups must reach.
SET_UP_SITUATIONS = (
    ['%s of %d %s' % (queue, size, state) for state in ('full', 'wrapped')
     for queue, least in zip(QUEUES, LEAST_CAPACITIES) for size in TEST_CAPACITIES if size >= least]
    + ['SDO of %d, words removed round the end' % size for size in TEST_CAPACITIES if size > 1]
    + ['%s watermark %s' % (queue, end) for queue in QUEUES for end in ('0', 'capacity')]
    + ['ID 0', 'ID 255']
    + ['%s capacity below its least refused' % queue for queue in QUEUES]
    + ['%s capacity above 1,024 refused' % queue for queue in QUEUES]
    + ['%s watermark above the capacity refused' % queue for queue in QUEUES]
    + ['ID above 255 refused']
    + ['set-up during a transfer', 'receipt number above 256', 'interrupt number above 256']
    + SET_UP_EMPTY_READS + watermarks((*PHASES, BURST_OPEN))
    + ['%s of %d, watermark %s' % (queue, size, value)
       for queue, least in zip(QUEUES, LEAST_CAPACITIES) for size in TEST_CAPACITIES
       if size >= least for value in (MOST, ABOVE)]
)

LENGTHS = range(CARRIED_LENGTH + 1)
BURST_CODES = (NO_ERROR, CE2, NACK, UNKNOWN)
# Situations of bursts, for the same scripts.
BURST_SITUATIONS = (
    ['burst of %d commands finished' % count for count in range(1, BURST_LENGTH + 1)]
    + ['burst, write of %d, all sent' % length for length in LENGTHS]
    + ['burst, read of %d, %d received' % (length, moved)
       for length in LENGTHS for moved in range(length + 1)]
    + ['burst, bytes of data word %d' % place for place in range(BURST_LENGTH)]
    + ['burst, data word and command at different places',
       'burst, data word passed over by a write without bytes',
       'burst, last command not carried past the length']
    + ['burst, code %d and on' % code for code in BURST_CODES]
    + ['burst, code %d and closed' % code for code in BURST_CODES]
    + ['%s: 13 in a burst' % letter for letter in EVENTS]
    + ['%s: %d before %d' % order for order in SHORT_ORDERS + TRIGGER_ORDERS]
    + ['write: 4 before 6']
    + ['trigger, output too short by one', 'trigger, output fits', 'trigger, output longer',
       'trigger, no reads and no output', 'trigger, not carried at the first place',
       'trigger, not carried at the last place', 'trigger, CCC not carried',
       'trigger, length above 4 not carried', 'trigger, length with low bits up to 4 not carried']
    + ['output changed in a burst, too short', 'output changed in a burst, long enough']
    + ['reset in a burst', 'reset in a burst, bytes received', 'reset in a burst, bytes sent',
       'set-up in a burst', 'OPS read in a burst', 'release when released, burst open']
    + ['burst, attached since the trigger', 'burst, detached since the trigger',
       'burst, byte moved, device detached since it opened',
       'burst, byte refused, device attached since it opened']
    + ['burst after a direct transfer', 'direct transfer after a burst']
    + ['burst finish, CMDR full', 'burst finish, SDI full', 'burst byte sent, SDO not empty',
       'burst byte sent, SDO empty', 'burst, fourth byte received, SDI full']
    + ['burst, write ended with %d, data stays in SDO' % code for code in UNSENT]
    + ['output word %d shown, written' % place for place in range(BURST_LENGTH)]
    + ['output word %d shown, not written' % place for place in range(OUTPUT_WORDS)]
)


def situations(test):
    return SET_UP_SITUATIONS + BURST_SITUATIONS if test else SESSION_SITUATIONS
