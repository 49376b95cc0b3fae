"""Sessions of resets, queues, transfers, interrupts and devices, made of fields by their names."""

from tests.scripts.endings import CE2, NACK, NO_ERROR, UNKNOWN
from tests.tools.map.file import ONES, bits, values, writable
from tests.tools.map.steps import Script, read, word, write
from thymewax import Number

# The second word of a direct CCC.
DIRECT = 0x80


def version(registers):
    script = Script(registers)
    script.see('VERSION', VERSION_MAJOR=0, VERSION_MINOR=1, VERSION_PATCH=0)
    return script.steps


def hold(registers):
    """ENABLE: 1 holds, so pushes and starts are refused; a reset keeps what it should."""
    script = Script(registers)
    for name in ('CMD_FIFO', 'SDO_FIFO'):
        script.steps.append(write(registers[name], 0, Number.HELD_IN_RESET))
    script.refused('S', Number.HELD_IN_RESET)
    script.put('SCRATCH', SCRATCH=0x12345678)
    script.put('IRQ_MASK', CMDR_PENDING=1)
    script.put('ENABLE', ENABLE=0)
    script.see('ENABLE', ENABLE=0)
    script.put('CMD_FIFO')
    script.put('SDO_FIFO')
    script.see('CMD_FIFO_ROOM', CMD_FIFO_ROOM=3)
    script.put('ENABLE', ENABLE=1)
    script.see('ENABLE', ENABLE=1)
    script.see('CMD_FIFO_ROOM', CMD_FIFO_ROOM=4)
    script.see('SDO_FIFO_ROOM', SDO_FIFO_ROOM=4)
    script.see('SCRATCH', SCRATCH=0x12345678)
    script.see('IRQ_MASK', CMDR_PENDING=1)
    return script.steps


def full(registers):
    """Each push takes one word of its own room; a fifth is dropped. Reads of the queue give 0."""
    script = Script(registers)
    script.release()
    for name, other in (('CMD', 'SDO'), ('SDO', 'CMD')):
        queue = registers[name + '_FIFO']
        script.see(other + '_FIFO_ROOM', **{other + '_FIFO_ROOM': 4})
        for room in (3, 2, 1, 0):
            script.steps += [write(queue, ONES), read(queue, 0)]
            script.see(name + '_FIFO_ROOM', **{name + '_FIFO_ROOM': room})
        script.steps.append(write(queue, ONES, Number.DROPPED_FULL))
        script.release()
    return script.steps


def whole_word(registers):
    """CMD queues all 32 bits, also those without a field: a start gives the first word."""
    script = Script(registers)
    script.release()
    script.steps += [write(registers['CMD_FIFO'], ONES)] * 2
    script.event('S', ONES)
    script.see('CMD_FIFO_ROOM', CMD_FIFO_ROOM=4)
    return script.steps


def transfers(registers):
    """A write, a read and a CCC: the fields of commands, data words and receipts."""
    script = Script(registers)
    script.release()
    script.attach(0x55)
    script.put('SDO_FIFO', SDO_FIFO_BYTE_3=0xa1, SDO_FIFO_BYTE_2=0xb2, SDO_FIFO_BYTE_1=0xc3,
               SDO_FIFO_BYTE_0=0xd4)
    script.command(CMD_BUFFER_LENGTH=4, CMD_DA=0x55)
    script.see_bits('OPS')
    for sent in (0xa1, 0xb2, 0xc3, 0xd4):
        script.event('T', sent)
    script.refused('T', Number.LENGTH_REACHED)
    script.finish(NO_ERROR, 0, 4)
    script.see_bits('OPS', 'OPS_STATUS_NOP')
    script.command(CMD_BUFFER_LENGTH=0xfff, CMD_DA=0x55, CMD_RNW=1)
    for received in (0xff, 2, 3, 4, 5):
        script.event('X %02x' % received)
    script.finish(NO_ERROR, 1, 5)
    # 0x54 is not attached: the address has all its bits in the comparison.
    for sync, other in enumerate((0x54, 0x15), 2):
        script.command(CMD_BUFFER_LENGTH=1, CMD_DA=other)
        script.refused('T', Number.NOT_ATTACHED)
        script.finish(UNKNOWN, sync)
    script.see_bits('FIFO_STATUS', 'IBI_EMPTY')
    script.see('CMDR_FIFO_LEVEL', CMDR_FIFO_LEVEL=4)
    script.see('SDI_FIFO_LEVEL', SDI_FIFO_LEVEL=2)
    script.see('SDI_FIFO', SDI_FIFO=0xff020304)
    script.see('SDI_FIFO', SDI_FIFO=0x05000000)
    script.empty('SDI_FIFO')
    script.see('SDI_FIFO_LEVEL', SDI_FIFO_LEVEL=0)
    for code, sync, length in ((NO_ERROR, 0, 4), (NO_ERROR, 1, 5), (UNKNOWN, 2, 0),
                               (UNKNOWN, 3, 0)):
        script.see_receipt(code, sync, length)
    script.empty('CMDR_FIFO')
    script.see('CMDR_FIFO_LEVEL', CMDR_FIFO_LEVEL=0)
    script.see_bits('FIFO_STATUS', 'SDI_EMPTY', 'IBI_EMPTY', 'CMDR_EMPTY')
    for name in ('SDI_FIFO', 'CMDR_FIFO'):
        script.empty(name)
    script.release()
    for name in ('SDI_FIFO', 'CMDR_FIFO'):
        script.empty_at_reset(name)
    return script.steps


def headers(registers):
    """The header bit alone lets a private transfer end with code 4; a CCC waits for a word."""
    script = Script(registers)
    script.release()
    script.attach(8)
    script.command(CMD_BUFFER_LENGTH=1, CMD_DA=8)
    script.refused('F 4', Number.ENDING_NOT_ALLOWED)
    script.finish(NACK, 0)
    script.command(CMD_BUFFER_LENGTH=1, CMD_DA=8, CMD_BCAST_HEADER=1)
    script.finish(CE2, 1)
    script.command(CMD_BUFFER_LENGTH=1, CMD_DA=8, CMD_SR=1)
    script.refused('F 4', Number.ENDING_NOT_ALLOWED)
    script.finish(NACK, 2)
    script.put('CMD_FIFO', CMD_IS_CCC=1)
    script.refused('S', Number.NO_COMMAND)
    return script.steps


def codes(registers):
    """The codes that end a transfer are those that have names: of a read by a direct CCC, of a write
    without bytes and of a transfer to a device that is not attached."""
    script = Script(registers)
    script.release()
    script.attach(8)
    named = values(registers['CMDR_FIFO'], 'CMDR_FIFO_ERROR')
    ends = {'NO_ERROR': {}, 'UNKNOWN_ADDRESS': {'CMD_DA': 9},
            **dict.fromkeys(('CE0', 'CE2', 'NACK'), {'CMD_IS_CCC': 1, 'CMD_RNW': 1,
                                                     'CMD_BUFFER_LENGTH': 1})}
    for sync, (name, command) in enumerate(sorted(ends.items())):
        command = {'CMD_DA': 8, **command}
        script.put('CMD_FIFO', **command)
        if 'CMD_IS_CCC' in command:
            script.steps.append(write(registers['CMD_FIFO'], DIRECT))
        script.event('S', word(registers['CMD_FIFO'], **command))
        for code in range(16):
            if code not in named.values():
                script.refused('F %x' % code, Number.ENDING_NOT_ALLOWED)
        script.finish(named[name], sync)
        script.see_receipt(named[name], sync)
    if set(named) != set(ends):
        raise ValueError('codes %s' % sorted(named))
    return script.steps


def many_receipts(registers):
    """The sync of a receipt has eight bits: it returns to 0 after 255."""
    script = Script(registers)
    script.release()
    script.attach(8)
    for count in range(258):
        script.command(CMD_DA=8)
        script.finish(NO_ERROR, count % 256)
        script.see_receipt(NO_ERROR, count % 256)
    return script.steps


def many_interrupts(registers):
    """The same of an interrupt's entry."""
    script = Script(registers)
    script.release()
    script.put('IBI_CONFIG', IBI_CONFIG_LISTEN=1, IBI_CONFIG_ENABLE=1)
    script.attach(0x7f, DEV_CHAR_IS_IBI_CAPABLE=1, DEV_CHAR_HAS_IBI_PAYLOAD=1)
    for count in range(258):
        entry = {'IBI_FIFO_DA': 0x7f, 'IBI_FIFO_MDB': 0xa5, 'IBI_FIFO_SYNC': count % 256}
        script.event('I 7f a5', word(registers['IBI_FIFO'], **entry))
        script.see('IBI_FIFO', **entry)
    script.empty('IBI_FIFO')
    return script.steps


def mode(registers):
    """Offload mode refuses a start."""
    script = Script(registers)
    script.release()
    script.put('OPS', OPS_SPEED_GRADE=3, OPS_OFFLOAD_LENGTH=15)
    script.refused('S', Number.NO_COMMAND)
    modes = values(registers['OPS'], 'OPS_MODE')
    script.put('OPS', OPS_MODE=modes['OFFLOAD'])
    script.refused('S', Number.NOT_IN_THIS_MODE)
    script.put('OPS', OPS_MODE=modes['DIRECT'])
    script.refused('S', Number.NO_COMMAND)
    return script.steps


def listening(registers):
    """Which bits of IBI_CONFIG and DEV_CHAR an interrupt needs, and what its entry has."""
    script = Script(registers)
    config = registers['IBI_CONFIG']
    listen = sum(bits(field) for field in config.fields if field.name == 'IBI_CONFIG_LISTEN')
    script.release()
    script.attach(8, DEV_CHAR_IS_IBI_CAPABLE=1, DEV_CHAR_HAS_IBI_PAYLOAD=1)
    script.attach(9, DEV_CHAR_IS_IBI_CAPABLE=1)
    script.attach(10, DEV_CHAR_HAS_IBI_PAYLOAD=1)
    script.put('DEV_CHAR', DEV_CHAR_ADDR=11, DEV_CHAR_WEN=1, DEV_CHAR_IS_IBI_CAPABLE=1)
    script.refused('I 08 5a', Number.NOT_HEARD)
    script.put('IBI_CONFIG', IBI_CONFIG_ENABLE=1)
    script.refused('I 08 5a', Number.NOT_HEARD)
    script.put('IBI_CONFIG', IBI_CONFIG_LISTEN=1)
    script.refused('I 08 5a', Number.NOT_ACKNOWLEDGED)
    script.steps.append(write(config, ONES & ~writable(config)))
    script.refused('I 08 5a', Number.NOT_HEARD)
    for bit in range(32):
        script.steps.append(write(config, 1 << bit))
        script.refused('I 08 5a', Number.NOT_ACKNOWLEDGED if 1 << bit & listen
                       else Number.NOT_HEARD)
    script.put('IBI_CONFIG', IBI_CONFIG_LISTEN=1, IBI_CONFIG_ENABLE=1)
    entries = [{'IBI_FIFO_DA': 8, 'IBI_FIFO_MDB': 0x5a, 'IBI_FIFO_SYNC': 0},
               {'IBI_FIFO_DA': 9, 'IBI_FIFO_MDB': 0, 'IBI_FIFO_SYNC': 1}]
    for line, entry in zip(('I 08 5a', 'I 09 5a'), entries):
        script.event(line, word(registers['IBI_FIFO'], **entry))
    script.refused('I 0a 5a', Number.NOT_ACKNOWLEDGED)
    script.refused('I 0b 5a', Number.NOT_ACKNOWLEDGED)
    script.see_bits('FIFO_STATUS', 'SDI_EMPTY', 'CMDR_EMPTY')
    for level, entry in zip((2, 1), entries):
        script.see('IBI_FIFO_LEVEL', IBI_FIFO_LEVEL=level)
        script.see('IBI_FIFO', **entry)
    script.empty('IBI_FIFO')
    script.see('IBI_FIFO_LEVEL', IBI_FIFO_LEVEL=0)
    script.release()
    script.empty_at_reset('IBI_FIFO')
    return script.steps


def devices(registers):
    """DEV_CHAR: every write selects, one with write enable stores the flags as well."""
    script = Script(registers)
    flags = ('DEV_CHAR_HAS_IBI_PAYLOAD', 'DEV_CHAR_IS_IBI_CAPABLE', 'DEV_CHAR_IS_ATTACHED')
    for address in range(128):
        chosen = {name: address + 1 >> bit & 1 for bit, name in enumerate(flags)}
        script.put('DEV_CHAR', DEV_CHAR_ADDR=address, DEV_CHAR_WEN=1, **chosen)
        script.see('DEV_CHAR', DEV_CHAR_ADDR=address, **chosen)
    for address in range(128):
        chosen = {name: address + 1 >> bit & 1 for bit, name in enumerate(flags)}
        script.put('DEV_CHAR', DEV_CHAR_ADDR=address, **dict.fromkeys(flags, 1))
        script.see('DEV_CHAR', DEV_CHAR_ADDR=address, **chosen)
    return script.steps


SESSIONS = (version, hold, full, whole_word, transfers, headers, codes, many_receipts,
            many_interrupts, mode, listening, devices)
