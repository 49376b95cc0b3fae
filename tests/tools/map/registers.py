"""Every register: at reset, with each bit written, beside all others, and where there is none."""

from tests.scripts.bank import SESSION_CAPACITIES, WATERMARKS
from tests.tools.map.file import ONES, cleared, kept
from tests.tools.map.steps import Script, Step, read, write
from thymewax import Number

CAPACITIES = dict(zip(WATERMARKS, SESSION_CAPACITIES))


def read_at_reset(register):
    return read(register, register.reset, Number.EMPTY if register.takes else Number.DONE)


def at_reset(registers):
    """Every register of a fresh bank, the write-only ones too: they read 0 and have it."""
    return [read_at_reset(one) for one in registers.values()]


def unwritten(registers):
    """A read-only register takes no write and stays as it is."""
    return [step for one in registers.values() if one.access == 'read-only'
            for value in (0, ONES)
            for step in (write(one, value, Number.DROPPED_READ_ONLY), read_at_reset(one))]


def after(register, value):
    """What a register that is read and written shows after a write. Its read-only bits stay as
    they are at reset: nothing but the write is done."""
    stay = register.reset & ~kept(register) & ~(value & cleared(register))
    return value & kept(register) | stay


def answered(register, value):
    """The number of a write: a watermark is at most the capacity of its queue, other registers take
    any value."""
    above = value & kept(register) > CAPACITIES.get(register.offset, ONES)
    return Number.WATERMARK_ABOVE_CAPACITY if above else Number.DONE


def written(register, values):
    """Writes with a read after each. A write that is dropped leaves what the one before left."""
    steps, shown = [], register.reset
    for value in values:
        number = answered(register, value)
        if number == Number.DONE:
            shown = after(register, value)
        steps += [write(register, value, number), read(register, shown)]
    return steps


def ones_and_zeros(register):
    """A write keeps exactly the bits that the file says."""
    return written(register, (ONES, 0, ONES & ~kept(register), kept(register)))


def single_bits(register):
    """One bit after another. DEV_CHAR has a session of its own: its flags need a bit more."""
    return written(register, [1 << bit for bit in range(32)])


def own_word(register, at):
    """A word that no other register gets. The five watermarks get 0 to 4, which fit."""
    word = 0x01020304 * (at + 1) & ONES
    if register.offset in WATERMARKS:
        word = word & ~kept(register) | WATERMARKS.index(register.offset)
    return word


def own_words(registers):
    """Each register keeps its own word while all others are written. IRQ_PENDING, which follows
    the mask, has sessions of its own, and DEV_CHAR."""
    keeping = [one for one in registers.values()
               if one.access == 'read-write' and one.name not in ('IRQ_PENDING', 'DEV_CHAR')]
    words = {one.name: own_word(one, at) for at, one in enumerate(keeping)}
    return [write(one, words[one.name]) for one in keeping] + \
        [read(one, after(one, words[one.name])) for one in keeping]


def unread(registers):
    """Write-only registers read 0, before a write and after, and nothing is taken by the read."""
    script = Script(registers)
    script.release()
    for one in registers.values():
        if one.access == 'write-only':
            script.steps += [read(one, 0), write(one, ONES), read(one, 0), read(one, 0)]
    script.see('CMD_FIFO_ROOM', CMD_FIFO_ROOM=3)
    script.see('SDO_FIFO_ROOM', SDO_FIFO_ROOM=3)
    return script.steps


def elsewhere(registers):
    """Every offset that the file does not have."""
    known = {one.offset for one in registers.values()}
    return [Step(line % offset, 0, Number.NO_REGISTER)
            for offset in range(0x10000) if offset not in known
            for line in ('R %x', 'W %x ffffffff')]


def sessions(registers):
    """Every session as its name and its steps."""
    for made in (at_reset, unwritten, own_words, unread, elsewhere):
        yield made.__name__, made(registers)
    for one in registers.values():
        if one.access == 'read-write':
            yield '%s: ones and zeros' % one.name, ones_and_zeros(one)
            if one.name != 'DEV_CHAR':
                yield '%s: single bits' % one.name, single_bits(one)
