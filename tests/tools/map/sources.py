"""Sessions of the interrupt sources: all eight set, masked, and cleared in each way."""

from tests.scripts.endings import NO_ERROR
from tests.tools.map.file import ONES, cleared
from tests.tools.map.steps import Script, read, word, write
from thymewax.formats import ENTDAA

# The names that are 1 in IRQ_SOURCE after each part of all_interrupts.
EMPTY = ('CMD_ALMOST_EMPTY', 'SDO_ALMOST_EMPTY')
INTERRUPTED = EMPTY + ('IBI_PENDING', 'IBI_ALMOST_FULL')
RECEIPTED = INTERRUPTED + ('CMDR_PENDING', 'CMDR_ALMOST_FULL')
ALL = RECEIPTED + ('SDI_ALMOST_FULL', 'DAA_PENDING')


def all_interrupts(script):
    """From a reset to a state with all eight interrupts, IRQ_SOURCE read on the way."""
    script.release()
    script.see_bits('IRQ_SOURCE', *EMPTY)
    script.put('IBI_CONFIG', IBI_CONFIG_LISTEN=1, IBI_CONFIG_ENABLE=1)
    script.attach(8, DEV_CHAR_IS_IBI_CAPABLE=1)
    for sync in range(4):
        script.event('I 08 00', word(script.registers['IBI_FIFO'], IBI_FIFO_DA=8,
                                     IBI_FIFO_SYNC=sync))
    script.see_bits('IRQ_SOURCE', *INTERRUPTED)
    for sync in range(3):
        script.command(CMD_DA=8)
        script.finish(NO_ERROR, sync)
    script.see_bits('IRQ_SOURCE', *INTERRUPTED, 'CMDR_PENDING')
    script.command(CMD_DA=8, CMD_BUFFER_LENGTH=8, CMD_RNW=1)
    for _ in range(8):
        script.event('X 00')
    script.finish(NO_ERROR, 3, 8)
    script.see_bits('IRQ_SOURCE', *RECEIPTED)
    # ENTDAA: the second word of its command has no fields.
    script.put('CMD_FIFO', CMD_IS_CCC=1)
    script.steps.append(write(script.registers['CMD_FIFO'], ENTDAA))
    script.event('S', word(script.registers['CMD_FIFO'], CMD_IS_CCC=1))
    script.event('D 0 0')
    script.see_bits('IRQ_SOURCE', *ALL)


def masks(registers):
    """Each bit of IRQ_MASK shows one interrupt, by the same name in all three registers."""
    script = Script(registers)
    all_interrupts(script)
    script.see('IRQ_PENDING')
    for name in ALL:
        script.put('IRQ_MASK', **{name: 1})
        script.see_bits('IRQ_PENDING', name)
    script.steps.append(write(registers['IRQ_MASK'], ONES))
    script.see_bits('IRQ_PENDING', *ALL)
    return script.steps


def acknowledged(registers):
    """A 1 written to a bit of IRQ_PENDING clears what the file says, with the mask and without;
    a 0 clears nothing."""
    script = Script(registers)
    source, pending, mask = (registers[name] for name in ('IRQ_SOURCE', 'IRQ_PENDING', 'IRQ_MASK'))
    full_word = word(source, **dict.fromkeys(ALL, 1))
    for shown in (0, ONES):
        for value in [1 << bit for bit in range(32)] + [0, ONES, ONES & ~cleared(pending)]:
            all_interrupts(script)
            left = full_word & ~(value & cleared(pending))
            script.steps += [write(mask, shown), write(pending, value), read(source, left),
                             read(pending, left & shown)]
    return script.steps


def cleared_by_names(registers):
    """The three pending bits, each cleared by its name; the other two stay."""
    script = Script(registers)
    for name in ('CMDR_PENDING', 'IBI_PENDING', 'DAA_PENDING'):
        all_interrupts(script)
        script.put('IRQ_MASK', **dict.fromkeys(ALL, 1))
        script.put('IRQ_PENDING', **{name: 1})
        script.see_bits('IRQ_PENDING', *(other for other in ALL if other != name))
        script.see_bits('IRQ_SOURCE', *(other for other in ALL if other != name))
    return script.steps


def cleared_by_queues(registers):
    """The read that empties CMDR or IBI, and a write to SDO, clear their bits."""
    script = Script(registers)
    all_interrupts(script)
    left = [name for name in ALL if name not in ('DAA_PENDING', 'SDO_ALMOST_EMPTY')]
    script.put('SDO_FIFO')
    script.see_bits('IRQ_SOURCE', *left)
    for sync, length in enumerate((0, 0, 0, 8)):
        script.see_receipt(NO_ERROR, sync, length)
    script.empty('CMDR_FIFO')
    left = [name for name in left if not name.startswith('CMDR')]
    script.see_bits('IRQ_SOURCE', *left)
    for sync in range(4):
        script.see('IBI_FIFO', IBI_FIFO_DA=8, IBI_FIFO_SYNC=sync)
    script.empty('IBI_FIFO')
    script.see_bits('IRQ_SOURCE', *(name for name in left if not name.startswith('IBI')))
    return script.steps


def moved_by_watermarks(registers):
    """A watermark at the level turns its own source off, and back on by the first value."""
    script = Script(registers)
    all_interrupts(script)
    for queue, level, source in (('CMD', 0, 'CMD_ALMOST_EMPTY'), ('CMDR', 4, 'CMDR_ALMOST_FULL'),
                                 ('SDO', 0, 'SDO_ALMOST_EMPTY'), ('SDI', 4, 'SDI_ALMOST_FULL'),
                                 ('IBI', 4, 'IBI_ALMOST_FULL')):
        name = queue + '_WATERMARK'
        script.put(name, **{name: level})
        script.see_bits('IRQ_SOURCE', *(other for other in ALL if other != source))
        script.steps.append(write(registers[name], registers[name].reset))
        script.see_bits('IRQ_SOURCE', *ALL)
    return script.steps


SESSIONS = (masks, acknowledged, cleared_by_names, cleared_by_queues, moved_by_watermarks)
