"""The words of image and tables, in one row, by place and name; their bounds; what of a command's
first word a transfer has."""

import itertools

from tests.scripts.bank import QUEUES as QUEUE_NAMES
from thymewax import Command, Register, image as layout

# Words of an image; a queue has four, from four times its number on.
(CAPACITY, WATERMARK, HEAD, LEVEL, ID, SCRATCH, IRQ_MASK, OPS, IBI_CONFIG, SELECTED, ENABLE, RECEIPT_SYNC,
 INTERRUPT_SYNC, PENDING_5, PENDING_6, PENDING_7, PLACE, CMDR_LATEST, SDI_LATEST, IBI_LATEST, PHASE, KIND, HEADER,
 LENGTH, MOVED, ATTACHED, PART) = map(int, layout.ImageWord)
QUEUES = range(CAPACITY, ID, 4)
# The words last read, by the registers that show them.
LATEST = {Register.CMDR_FIFO: CMDR_LATEST, Register.SDI_FIFO: SDI_LATEST, Register.IBI_FIFO: IBI_LATEST}
# The tables follow: a word for each flag byte, then offload commands and data.
FLAGS = range(layout.IMAGE_WORDS, layout.IMAGE_WORDS + layout.FLAGS)
COMMANDS = range(FLAGS.stop, FLAGS.stop + layout.OFFLOAD_WORDS)
DATA = range(COMMANDS.stop, layout.WORDS)
TRANSFER = range(PHASE, PART + 1)
CLEAR_IN_RESET = [*(queue + number for queue in QUEUES for number in (HEAD, LEVEL)),
                  *range(RECEIPT_SYNC, PART + 1)]
NAMES = [
    *('%s %s' % pair for pair in itertools.product(
        QUEUE_NAMES, ('capacity', 'watermark', 'head', 'level'))),
    'ID', 'SCRATCH', 'IRQ_MASK', 'OPS', 'IBI_CONFIG', 'address selected', 'ENABLE', 'receipt sync',
    'interrupt sync', 'pending bit 5', 'pending bit 6', 'pending bit 7', 'burst place',
    'last read from CMDR', 'last read from SDI', 'last read from IBI', 'phase', 'kind', 'header bit',
    'length', 'moved', 'attached', 'part word',
    *('flags of %02x' % address for address in range(len(FLAGS))),
    *('offload command %d' % number for number in range(len(COMMANDS))),
    *('offload data %d' % number for number in range(len(DATA))),
]
# The order of the second program: as here, but the words last read come behind all others.
REFERENCE_ORDER = [place for place in range(layout.WORDS) if place not in LATEST.values()] + [*LATEST.values()]
# Words that are counted together. No burst reaches the last offload command.
GROUPS = {**dict.fromkeys(FLAGS, 'device flags'), **dict.fromkeys(COMMANDS, 'offload commands'),
          COMMANDS[-1]: 'last offload command', **dict.fromkeys(DATA, 'offload data')}
FIELDS = [GROUPS.get(place, name) for place, name in enumerate(NAMES)]
FREE = {'SCRATCH', 'last offload command', 'offload data'}

MOST = 0xffffffff
# The largest number of a field that no other word bounds.
LARGEST = {ID: 255, IRQ_MASK: 255, OPS: 127, IBI_CONFIG: 3, SELECTED: 127, ENABLE: 1,
           RECEIPT_SYNC: 255, INTERRUPT_SYNC: 255, PENDING_5: 1, PENDING_6: 1, PENDING_7: 1,
           PHASE: 5, KIND: 2, HEADER: 1, ATTACHED: 1, **dict.fromkeys(FLAGS, 7)}
CCC_BIT, HEADER_BIT, READ_BIT, LENGTH_BITS = (
    Command(ccc=True).word, Command(header=True).word, Command(read=True).word,
    Command(length=0xfff).word)
