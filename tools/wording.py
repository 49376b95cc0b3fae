"""Calls and their answers in words."""

from collections.abc import Callable, Mapping, Sequence

import register_table
from commands import Entry
from data_words import WORD_BYTES, Payload, Removed, Request, SdiWord, SdoWord, Sent
from inputs import Made
from ledger import About
from thymewax import (OFFLOAD_CMD, AddressWord, Call, Ccc, Command, Config, Device, Image,
                      Interrupt, Irq, Kind, Number, Ops, Phase, Receipt, Register, Status, name_of)
from thymewax.formats import ENTDAA

TABLE = register_table.load()
CODES = {value.number: value.text for value in TABLE.values['code']}
ASSIGNING = (Phase.ASSIGNING, Phase.ASSIGNING_REQUEST_OPEN, Phase.ASSIGNING_SOME_ANSWERED)
PHASES = {
    Phase.WRITING: 'write', Phase.READING: 'read', Phase.ASSIGNING: 'ENTDAA, no request made',
    Phase.ASSIGNING_REQUEST_OPEN: 'ENTDAA, a request is open',
    Phase.ASSIGNING_SOME_ANSWERED: 'ENTDAA, no request open',
}
KINDS = {
    Kind.PRIVATE: 'private', Kind.DIRECT_CCC: 'direct CCC', Kind.BROADCAST_CCC: 'broadcast CCC',
}

# How many words of a list are named.
NAMED_WORDS = 8
# The queues by the offsets of their watermarks, and what is read of IRQ_SOURCE where a level is
# below its watermark, or above it.
MARKED = {one.offset: one.name.removesuffix('_WATERMARK').lower()
          for one in TABLE.of_word('watermark')}
BELOW = {'cmd': Irq.CMD_ALMOST_EMPTY, 'sdo': Irq.SDO_ALMOST_EMPTY}
ABOVE = {'cmdr': Irq.CMDR_ALMOST_FULL, 'sdi': Irq.SDI_ALMOST_FULL, 'ibi': Irq.IBI_ALMOST_FULL}


def count(number: int, noun: str) -> str:
    return '%d %s%s' % (number, noun, '' if number == 1 else 's')


def listed(parts: Sequence[str], none: str) -> str:
    return ', '.join(parts) if parts else none


def bits(flags: Irq | Status | Config) -> str:
    """The names of the bits that are set, the lowest first."""
    return listed([name for flag in flags if (name := flag.name)], 'no bit')


# ── Words with fields ───────────────────────────────────────────────────────────────────────────

def command(words: Sequence[int]) -> str:
    """A command by its words; of a CCC the second may be missing."""
    first = Command.of(words[0])
    if first.ccc and len(words) < 2:
        return 'first word of a CCC'
    code = Ccc.of(words[1]) if first.ccc else None
    extras = [text for text, is_set in (('broadcast header', first.header and not first.ccc),
                                        ('repeated start', first.repeated_start)) if is_set]
    if code is not None and code.code == ENTDAA:
        return ', '.join(['ENTDAA', *extras])
    kind = 'private' if code is None else '%s CCC %02x' % (
        'direct' if code.direct else 'broadcast', code.code)
    device = ('' if code is not None and not code.direct
              else ' %s %02x' % ('from' if first.read else 'to', first.address))
    return ', '.join(['%s %s%s' % (kind, 'read' if first.read else 'write', device),
                      count(first.length, 'byte'), *extras])


def second_word(word: int) -> str:
    code = Ccc.of(word)
    if code.code == ENTDAA:
        return 'second word of a CCC, ENTDAA'
    return 'second word of a CCC, %s, code %02x' % (
        'direct' if code.direct else 'broadcast', code.code)


def receipt(word: int) -> str:
    got = Receipt.of(word)
    return '%s, %s moved, sync %d' % (error(got.error), count(got.length, 'byte'), got.sync)


def error(code: int) -> str:
    return CODES.get(code, 'code %d' % code)


def interrupt(word: int) -> str:
    entry = Interrupt.of(word)
    return 'interrupt from %02x, byte %02x, sync %d' % entry


def data(word: int) -> str:
    return 'bytes %s' % word.to_bytes(4, 'big').hex(' ')


def address_word(word: int) -> str:
    got = AddressWord.of(word)
    return 'address %02x, parity %s' % (got.address, 'right' if got.parity_right else 'wrong')


def ops(word: int) -> str:
    got = Ops.of(word)
    return '%s mode, offload length %d, speed %d' % (
        'offload' if got.offload else 'direct', got.offload_length, got.speed)


def device(word: int) -> str:
    got = Device.of(word)
    flags = [text for text, is_set in (('may interrupt', got.may_interrupt),
                                       ('sends a byte', got.sends_byte)) if is_set]
    attached = 'attached' if got.attached else 'not attached'
    return ', '.join(['device %02x' % got.address, attached, *flags])


# ── Accesses ────────────────────────────────────────────────────────────────────────────────────

def register(offset: int) -> str:
    return name_of(offset) or 'offset %04x' % offset


def cmd_write(value: int, awaits_second: bool) -> str:
    return second_word(value) if awaits_second else command([value])


def device_write(value: int) -> str:
    if Device.of(value).store:
        return device(value)
    return 'select device %02x' % Device.of(value).address


def sdo_write(value: int, before: Image) -> str:
    return address_word(value) if before.transfer.phase in ASSIGNING else data(value)


def plain(value: int) -> str:
    return '%08x' % value


# What is written and what is read in words, by what docs/registers.toml has as the register's word.
WRITTEN_WORDS: dict[str, Callable[[int], str]] = {
    'number': plain,
    'enable': lambda value: 'reset and hold' if value & 1 else 'release',
    'command': lambda value: command([value]),
    'data': data,
    'ops': ops,
    'ibi_config': lambda value: bits(Config(value & 3)),
    'device': device_write,
    'watermark': lambda value: count(value & 0xffff, 'word'),
}
READ_WORDS: dict[str, Callable[[int], str]] = {
    'number': plain,
    'version': plain,
    'enable': lambda value: 'held in reset' if value & 1 else 'released',
    'irq': lambda value: bits(Irq(value)),
    'room': lambda value: 'room for %s' % count(value, 'word'),
    'level': lambda value: count(value, 'word'),
    'command': lambda value: command([value]),
    'receipt': receipt,
    'data': data,
    'interrupt': interrupt,
    'status': lambda value: bits(Status(value)),
    'ops': lambda value: '%s, %s' % (
        ops(value), 'no transfer open' if Ops.of(value).idle else 'a transfer is open'),
    'device': device,
    'watermark': lambda value: count(value, 'word'),
}
# Where registers of one word are written for different ends.
WRITTEN_TO: dict[str, Callable[[int], str]] = {
    'IRQ_MASK': lambda value: 'show %s' % bits(Irq(value & 0xff)),
    'IRQ_PENDING': lambda value: 'clear %s' % bits(Irq(value & 0xe0)),
}
# By offset. What a register does not take, or does not show, is told as a number.
WRITES = {offset: WRITTEN_TO.get(one.name) or WRITTEN_WORDS.get(one.word, plain)
          for one in TABLE.registers if one.access != 'ro' for offset in one.offsets}
READS = {offset: READ_WORDS.get(one.word, plain)
         for one in TABLE.registers if one.access != 'wo' for offset in one.offsets}


def write(call: Call, before: Image, awaits_second: bool) -> str:
    if call.offset == Register.CMD_FIFO:
        told = cmd_write(call.first, awaits_second)
    elif call.offset == Register.SDO_FIFO:
        told = sdo_write(call.first, before)
    else:
        told = WRITES.get(call.offset, plain)(call.first)
    return 'write %s: %s' % (register(call.offset), told)


# ── Data words ──────────────────────────────────────────────────────────────────────────────────

def whose(entry: Entry) -> str:
    """A command with the call that wrote it."""
    return '%s (call %d)' % (command(entry.words), entry.written)


def numbered(noun: str, first: int, last: int) -> str:
    return '%s %d' % (noun, last) if first == last else '%ss %d to %d' % (noun, first, last)


def leading(number: int) -> str:
    return 'first byte' if number == 1 else 'first %d bytes' % number


def sdo_word(one: SdoWord) -> str:
    return '%08x (call %d)' % (one.word, one.written)


def sent_word(one: SdoWord) -> str:
    """The same, with what was sent of it where that is not all."""
    if not isinstance(one.fate, Sent) or one.fate.whole:
        return sdo_word(one)
    return '%08x (call %d, %s)' % (one.word, one.written, leading(len(one.fate.calls)))


def left_sdo(made: Made, words: Sequence[SdoWord]) -> str:
    """The word that left SDO, or those that did for a finished command: the first of them where they
    are many."""
    if not words:
        return ''
    if made.call.letter != 'F':
        return 'taken from SDO: %s' % sdo_word(words[0])
    how = 'removed from SDO' if isinstance(words[0].fate, Removed) else 'sent'
    named = [sent_word(one) for one in words[:NAMED_WORDS]]
    if len(words) > NAMED_WORDS:
        named.append('and %d more' % (len(words) - NAMED_WORDS))
    return '%s for it: %s' % (how, ', '.join(named))


def source(origin: Payload | Request) -> str:
    """Where a word of SDI came from."""
    if isinstance(origin, Request):
        return '%s word of the address request of call %d' % (
            'second' if origin.second else 'first', origin.call)
    return '%s%s of %s' % (
        numbered('byte', origin.place, origin.place + origin.count - 1),
        '' if origin.count == WORD_BYTES else ' and padding', whose(origin.entry))


def moved_sdi(made: Made, words: Sequence[SdiWord]) -> str:
    """The word that was read, or that came, if one did."""
    if not words:
        return ''
    if made.call.letter == 'R':
        return source(words[0].source)
    return 'put into SDI: %08x' % words[0].word


# ── What a call was, and what it gave ───────────────────────────────────────────────────────────

# What a letter names.
CALLS = {
    'W': 'write', 'R': 'read', 'S': 'start', 'T': 'send', 'X': 'receive', 'F': 'finish',
    'I': 'interrupt request', 'D': 'address request', 'A': 'address take', 'G': 'trigger',
}
EVENTS: dict[str, Callable[[Call], str]] = {
    'R': lambda call: 'read %s' % register(call.offset),
    'S': lambda call: 'start',
    'T': lambda call: 'send',
    'X': lambda call: 'receive %02x' % call.first,
    'F': lambda call: 'finish with %s' % error(call.first),
    'I': lambda call: 'interrupt request of %02x with %02x' % (call.first, call.second),
    'D': lambda call: 'address request with %08x %08x' % (call.first, call.second),
    'A': lambda call: 'address take',
    'G': lambda call: 'trigger',
}


def asked(made: Made, awaits_second: bool) -> str:
    """What the call was."""
    if made.call.letter == 'W':
        return write(made.call, made.before, awaits_second)
    return EVENTS[made.call.letter](made.call)


def moved(after: Image) -> str:
    return 'byte %d of %d' % (after.transfer.moved, after.transfer.length)


def burst_finish(made: Made, place: int) -> str:
    """A burst's finish queues no receipt. A read's word goes to the output; the next command
    opens, or the burst ends."""
    told = ('the burst is done' if made.after.burst_place is None
            else 'command %d of the burst is next' % made.after.burst_place)
    if made.before.transfer.phase != Phase.READING:
        return told
    reads = sum(Command.of(word).read for word in made.before.offload_commands[:place])
    return 'word %d of the output is %08x, %s' % (reads, made.output[reads], told)


def finished(made: Made) -> str:
    if made.before.burst_place is not None:
        return burst_finish(made, made.before.burst_place)
    return 'receipt %s' % receipt(made.answer.value)


GIVEN: dict[str, Callable[[Made], str]] = {
    'R': lambda made: READS.get(made.call.offset, plain)(made.answer.value),
    'T': lambda made: '%02x, %s' % (made.answer.value, moved(made.after)),
    'X': lambda made: moved(made.after),
    'F': finished,
    'I': lambda made: interrupt(made.answer.value),
    'A': lambda made: 'address %02x' % made.answer.value,
    'G': lambda made: 'a burst of %s' % count(Ops.of(made.after.ops).offload_length, 'command'),
}


def given(made: Made) -> str:
    """What the call gave, where it was done and gave something."""
    return GIVEN.get(made.call.letter, lambda made: '')(made)


def level_sources(image: Image) -> Irq:
    """The sources that levels and watermarks set (`source.levels`)."""
    found = Irq(0)
    for queue, ring in image.rings._asdict().items():
        if queue in BELOW and ring.level < ring.watermark:
            found |= BELOW[queue]
        elif queue in ABOVE and ring.level > ring.watermark:
            found |= ABOVE[queue]
    return found


def turned(made: Made) -> str:
    """The source that a watermark turned on or off: no word moved, so nothing else tells of it."""
    if made.call.offset not in MARKED:
        return ''
    before, after = level_sources(made.before), level_sources(made.after)
    if before == after:
        return ''
    return '%s turns %s' % (bits(before ^ after), 'on' if before ^ after in after else 'off')


def told(made: Made, asked: str, about: About) -> str:
    """What a call was, what it gave, the command that it was about, the data words that it moved,
    and of a watermark the source that it moved."""
    if made.answer.refused:
        return asked
    if made.call.letter == 'W':
        return '; '.join(filter(None, [asked, turned(made)]))
    more = '; '.join(filter(None, [given(made), about.entry and whose(about.entry),
                                   left_sdo(made, about.sdo), moved_sdi(made, about.sdi)]))
    return '%s: %s' % (asked, more) if more else asked


# ── Why a call was refused ──────────────────────────────────────────────────────────────────────

def open_transfer(image: Image) -> str:
    """The transfer that is open."""
    got = image.transfer
    if got.phase in ASSIGNING:
        told = PHASES[got.phase]
    else:
        told = '%s %s, %d of %s moved' % (KINDS[got.kind], PHASES[got.phase], got.moved,
                                          count(got.length, 'byte'))
    if image.burst_place is not None:
        told += ', command %d of a burst' % image.burst_place
    return told


def fill(name: str, image: Image) -> str:
    ring = getattr(image.rings, name)
    return '%s has %d of %s' % (name.upper(), ring.level, count(ring.capacity, 'word'))


def no_room(call: Call, before: Image) -> str:
    queues = {'X': ['sdi'], 'F': ['sdi', 'cmdr'], 'I': ['ibi'], 'D': ['sdi']}
    if before.burst_place is not None or call.letter not in queues:
        return 'the output is too short for the burst'
    return ', '.join(fill(name, before) for name in queues[call.letter])


def too_high(call: Call, before: Image) -> str:
    queue = MARKED[call.offset]
    ring = getattr(before.rings, queue)
    return '%s has a capacity of %s, its watermark stays %d' % (
        queue.upper(), count(ring.capacity, 'word'), ring.watermark)


def mode(image: Image) -> str:
    return 'OPS says %s mode' % ('offload' if Ops.of(image.ops).offload else 'direct')


def not_acknowledged(call: Call, before: Image) -> str:
    if not before.ibi_config & Config.IBI_CONFIG_ENABLE:
        return 'IBI_CONFIG_ENABLE is 0'
    asking = before.device(call.first)
    return 'device %02x %s' % (asking.address,
                               'may not interrupt' if asking.attached else 'is not attached')


def not_carried(image: Image) -> str:
    """The first command that a burst does not carry: a CCC, or one of more than 4 bytes."""
    commands = map(Command.of, image.offload_commands[:Ops.of(image.ops).offload_length])
    place, first = next((place, one) for place, one in enumerate(commands)
                        if one.ccc or one.length > 4)
    return '%s %s' % (register(OFFLOAD_CMD[place]),
                      'is a CCC' if first.ccc else 'has %s' % count(first.length, 'byte'))


WHY: dict[int, Callable[[Call, Image], str]] = {
    Number.DROPPED_FULL:
        lambda call, before: fill('cmd' if call.offset == Register.CMD_FIFO else 'sdo', before),
    Number.NO_REGISTER:
        lambda call, before: 'not a multiple of 4' if call.offset % 4 else 'not in the map',
    Number.TRANSFER_OPEN: lambda call, before: open_transfer(before),
    Number.NOT_IN_THIS_MODE: lambda call, before: mode(before),
    Number.NO_COMMAND: lambda call, before: fill('cmd', before),
    Number.NOT_THIS_KIND: lambda call, before: open_transfer(before),
    Number.LENGTH_REACHED: lambda call, before: open_transfer(before),
    Number.NO_ROOM: no_room,
    Number.ENDING_NOT_ALLOWED: lambda call, before: open_transfer(before),
    Number.SDO_NOT_EMPTY: lambda call, before: fill('sdo', before),
    Number.NOT_ACKNOWLEDGED: not_acknowledged,
    # Its flag may have been set since.
    Number.NOT_ATTACHED: lambda call, before: 'it was not when the transfer opened',
    Number.NOT_CARRIED: lambda call, before: not_carried(before),
    Number.WATERMARK_ABOVE_CAPACITY: too_high,
}


def shown_again(queue: str, read: int | None) -> str:
    """What an empty queue shows. `read` is the call that read its last word."""
    if read is None:
        return 'no word was read from %s since the reset' % queue
    return 'the value is an old one: the word last read from %s, first by call %d' % (queue, read)


def why(made: Made, last_reads: Mapping[int, int]) -> str:
    """Why the call was not done: what its number means, and what stood in the way. Of an empty queue,
    what its value is, by the calls that read each queue's last word."""
    number, call = made.answer.number, made.call
    if number == Number.EMPTY:
        more = shown_again(register(call.offset), last_reads.get(call.offset))
    else:
        more = WHY[number](call, made.before) if number in WHY else ''
    return '%d, %s%s' % (number, made.answer.meaning, ' (%s)' % more if more else '')
