"""The register map as docs/registers.svd has it, read and held to itself."""

import xml.etree.ElementTree as ElementTree
from collections import namedtuple

import register_table

OFFSETS = sum(len(one.offsets) for one in register_table.load().registers)
ONES = 0xffffffff
# What a peripheral, a register, a field and a name for a number have, in the order that the schema
# wants.
PERIPHERAL_ORDER = ['name', 'description', 'baseAddress', 'addressBlock', 'interrupt', 'registers']
INTERRUPT_ORDER = ['name', 'description', 'value']
REGISTER_ORDER = ['dim', 'dimIncrement', 'name', 'description', 'addressOffset', 'size', 'access',
                  'resetValue', 'resetMask', 'readAction', 'fields']
FIELD_ORDER = ['name', 'description', 'bitRange', 'access', 'modifiedWriteValues',
               'enumeratedValues']
VALUE_ORDER = ['name', 'description', 'value']
OPTIONAL = {'dim', 'dimIncrement', 'readAction', 'modifiedWriteValues', 'enumeratedValues'}
ACCESSES = ('read-only', 'write-only', 'read-write')
# What no session tells apart is stated here: plain words, fields that are stored only or that only
# a trigger uses, fields whose every bit no session sees at 1, as those of a watermark.
WORDS = ('DEVICE_ID', 'SCRATCH', 'CMD_FIFO_ROOM', 'CMDR_FIFO_LEVEL', 'SDO_FIFO_ROOM',
         'SDI_FIFO_LEVEL', 'IBI_FIFO_LEVEL')
PLAIN_BITS = {
    'VERSION': {'VERSION_MAJOR': (31, 16), 'VERSION_MINOR': (15, 8), 'VERSION_PATCH': (7, 0)},
    'CMD_FIFO': {'CMD_IS_CCC': (22, 22), 'CMD_SR': (20, 20)},
    'CMDR_FIFO': {'CMDR_FIFO_ERROR': (23, 20), 'CMDR_FIFO_BUFFER_LENGTH': (19, 8)},
    'IBI_FIFO': {'IBI_FIFO_DA': (23, 17), 'IBI_FIFO_MDB': (15, 8)},
    'OPS': {'OPS_SPEED_GRADE': (6, 5), 'OPS_OFFLOAD_LENGTH': (4, 1)},
    **{name: {name: (31, 0)} for name in WORDS},
    **{name + '_WATERMARK': {name + '_WATERMARK': (15, 0)}
       for name in ('CMD', 'CMDR', 'SDO', 'SDI', 'IBI')},
    **{'OFFLOAD_CMD[%d]' % at: {'OFFLOAD_CMD': (31, 0)} for at in range(16)},
    **{'OFFLOAD_SDO[%d]' % at: {'OFFLOAD_SDO_BYTE_%d' % byte: (8 * byte + 7, 8 * byte)
                                for byte in range(4)} for at in range(16)},
}

# values: the names of its numbers.
Field = namedtuple('Field', 'name high low access clears values')
Register = namedtuple('Register', 'name offset access reset takes fields')


class Checks:
    """How many checks were made, and what was wrong."""

    def __init__(self):
        self.count = 0
        self.wrong = []

    def holds(self, condition, message):
        self.count += 1
        if not condition:
            self.wrong.append(message)


def bits(field):
    return (1 << field.high + 1) - (1 << field.low)


def fields_with(register, *accesses):
    """The bits of the fields that have one of these accesses."""
    return sum(bits(field) for field in register.fields if field.access in accesses)


def readable(register):
    return fields_with(register, 'read-only', 'read-write')


def writable(register):
    return fields_with(register, 'write-only', 'read-write')


def kept(register):
    """The bits that a write keeps and a read shows again."""
    return sum(bits(field) for field in register.fields
               if field.access == 'read-write' and not field.clears)


def cleared(register):
    """The bits that a written 1 clears."""
    return sum(bits(field) for field in register.fields if field.clears)


def values(register, field):
    """The names for the numbers of a field."""
    return next(one.values for one in register.fields if one.name == field)


def in_order(node, order):
    """Whether a node has what it must, in this order, each once."""
    tags = [child.tag for child in node]
    return tags == [tag for tag in order if tag in tags] and \
        all(tag in tags or tag in OPTIONAL for tag in order)


def read_field(node):
    high, low = node.findtext('bitRange').strip('[]').split(':')
    clears = node.findtext('modifiedWriteValues')
    if clears not in (None, 'oneToClear'):
        raise ValueError('modifiedWriteValues %s' % clears)
    values = {one.findtext('name'): int(one.findtext('value'))
              for one in node.iter('enumeratedValue')}
    return Field(node.findtext('name'), int(high), int(low), node.findtext('access'), bool(clears),
                 values)


def read_register(node):
    """A register as the file has it, expanded if it is an array."""
    count, step = (int(node.findtext(tag, '0'), 0) for tag in ('dim', 'dimIncrement'))
    action = node.findtext('readAction')
    if action not in (None, 'modify'):
        raise ValueError('readAction %s' % action)
    name, offset = node.findtext('name'), int(node.findtext('addressOffset'), 0)
    fields = [read_field(field) for field in node.find('fields')]
    rest = node.findtext('access'), int(node.findtext('resetValue'), 0), bool(action), fields
    if not count:
        return [Register(name, offset, *rest)]
    return [Register(name.replace('%s', str(at)), offset + step * at, *rest)
            for at in range(count)]


def check_head(checks, root):
    """Device and peripheral."""
    peripherals = root.findall('peripherals/peripheral')
    checks.holds(root.tag == 'device' and root.get('schemaVersion') == '1.3', 'not schema 1.3')
    checks.holds(root.findtext('addressUnitBits') == '8', 'addressUnitBits is not 8')
    checks.holds(root.findtext('width') == '32', 'width is not 32')
    checks.holds(len(peripherals) == 1, 'not one peripheral')
    checks.holds(int(peripherals[0].findtext('baseAddress'), 0) == 0, 'base address is not 0')
    checks.holds(in_order(peripherals[0], PERIPHERAL_ORDER), 'elements of the peripheral')
    interrupt = peripherals[0].find('interrupt')
    checks.holds(in_order(interrupt, INTERRUPT_ORDER), 'elements of the interrupt')
    checks.holds(interrupt.findtext('value') == '0', 'the number of the interrupt is not 0')


def check_nodes(checks, nodes):
    """What every register and field of the file has, before arrays are expanded."""
    for node in nodes:
        name = node.findtext('name')
        checks.holds(in_order(node, REGISTER_ORDER), '%s: its elements' % name)
        checks.holds(node.findtext('size') == '32', '%s: size is not 32' % name)
        checks.holds(node.findtext('resetMask') == '0x%x' % ONES, '%s: resetMask' % name)
        checks.holds(node.findtext('description'), '%s: no description' % name)
        checks.holds(node.findtext('dim') in (None, '16'), '%s: dim is not 16' % name)
        checks.holds((node.find('dim') is None) == ('[%s]' not in name), '%s: no array' % name)
        for field in node.find('fields'):
            checks.holds(in_order(field, FIELD_ORDER), '%s: elements of a field' % name)
            checks.holds(field.findtext('description'), '%s: a field not described' % name)
            for value in field.iter('enumeratedValue'):
                checks.holds(in_order(value, VALUE_ORDER), '%s: elements of a value' % name)


def check_fields(checks, register):
    """Fields lie inside the word, apart, and allow no more than their register."""
    name, used = register.name, 0
    checks.holds(register.access in ACCESSES, '%s: access %s' % (name, register.access))
    checks.holds(register.fields, '%s: no fields' % name)
    names = [field.name for field in register.fields]
    checks.holds(len(set(names)) == len(names), '%s: two fields of one name' % name)
    for field in register.fields:
        where = '%s.%s' % (name, field.name)
        checks.holds(31 >= field.high >= field.low >= 0, '%s: not inside 32 bits' % where)
        checks.holds(not used & bits(field), '%s: overlaps' % where)
        checks.holds(field.access in ACCESSES, '%s: access %s' % (where, field.access))
        checks.holds(register.access in ('read-write', field.access),
                     '%s: %s in a register that is %s' % (where, field.access, register.access))
        checks.holds(field.access == 'read-write' or not field.clears, '%s: clears' % where)
        numbers = list(field.values.values())
        checks.holds(len(set(numbers)) == len(numbers), '%s: two names of one number' % where)
        checks.holds(all(number << field.low & ~bits(field) == 0 for number in numbers),
                     '%s: a number outside of it' % where)
        used |= bits(field)
    checks.holds(bool(readable(register)) == (register.access != 'write-only'),
                 '%s: its fields are not read as it is' % name)
    checks.holds(bool(writable(register)) == (register.access != 'read-only'),
                 '%s: its fields are not written as it is' % name)
    checks.holds(not register.reset & ~used, '%s: reset value outside its fields' % name)


def check_file(checks, text):
    """The file by itself; its registers by name, arrays expanded."""
    root = ElementTree.fromstring(text)
    check_head(checks, root)
    nodes = root.findall('peripherals/peripheral/registers/register')
    check_nodes(checks, nodes)
    registers = [one for node in nodes for one in read_register(node)]
    offsets = [one.offset for one in registers]
    checks.holds(offsets == sorted(set(offsets)), 'offsets are not in order, or overlap')
    checks.holds(all(offset % 4 == 0 for offset in offsets), 'an offset is no multiple of 4')
    checks.holds(len(offsets) == OFFSETS, '%d offsets, not %d' % (len(offsets), OFFSETS))
    block = int(root.findtext('peripherals/peripheral/addressBlock/size'), 0)
    checks.holds(block == max(offsets) + 4, 'the address block does not end with the registers')
    for one in registers:
        check_fields(checks, one)
    named = {one.name: one for one in registers}
    checks.holds(len(named) == len(registers), 'two registers of one name')
    for name, places in PLAIN_BITS.items():
        found = {one.name: (one.high, one.low) for one in named[name].fields}
        for field, place in places.items():
            checks.holds(found.get(field) == place, '%s.%s: not %d:%d' % (name, field, *place))
    return named
