"""The steps of a session: lines made of registers and fields, and what they must be answered."""

from collections import namedtuple

from tests.tools.map.file import bits, readable, writable
from thymewax import Number

# A line of a session and what it must be answered.
Step = namedtuple('Step', 'line value number')


def read(register, value, number=Number.DONE):
    """A read. What the file does not call readable cannot be expected."""
    if value & ~readable(register):
        raise ValueError('%s cannot read %08x' % (register.name, value))
    return Step('R %x' % register.offset, value, number)


def write(register, value, number=Number.DONE):
    return Step('W %x %x' % (register.offset, value), 0, number)


def word(register, **values):
    """The word whose fields have these values, all others 0."""
    fields = {field.name: field for field in register.fields}
    total = 0
    for name, value in values.items():
        total |= value << fields[name].low
        if value << fields[name].low & ~bits(fields[name]):
            raise ValueError('%s.%s has no room for %x' % (register.name, name, value))
    return total


class Script:
    """Steps put together from names of registers and fields."""

    def __init__(self, registers):
        self.registers = registers
        self.steps = []

    def put(self, name, **values):
        """A write of fields, which the file must call writable."""
        register = self.registers[name]
        value = word(register, **values)
        if value & ~writable(register):
            raise ValueError('%s cannot be written %08x' % (name, value))
        self.steps.append(write(register, value))

    def see(self, name, **values):
        """A read that gives these fields and 0 elsewhere."""
        self.steps.append(read(self.registers[name], word(self.registers[name], **values)))

    def see_bits(self, name, *fields):
        """A read in which exactly these one-bit fields are 1."""
        for field in self.registers[name].fields:
            if field.name in fields and field.high != field.low:
                raise ValueError('%s.%s is not one bit' % (name, field.name))
        self.see(name, **dict.fromkeys(fields, 1))

    def empty(self, name):
        """A read of an empty queue, which shows the word of the read before it."""
        register = self.registers[name]
        line = read(register, 0).line
        value = next(step.value for step in reversed(self.steps) if step.line == line)
        self.steps.append(read(register, value, Number.EMPTY))

    def empty_at_reset(self, name):
        """A read of a queue that a reset has emptied."""
        register = self.registers[name]
        self.steps.append(read(register, register.reset, Number.EMPTY))

    def event(self, line, value=0, answer=Number.DONE):
        self.steps.append(Step(line, value, answer))

    def refused(self, line, number):
        self.event(line, 0, number)

    def release(self):
        self.put('ENABLE', ENABLE=1)
        self.put('ENABLE', ENABLE=0)

    def attach(self, address, **flags):
        self.put('DEV_CHAR', DEV_CHAR_ADDR=address, DEV_CHAR_WEN=1, DEV_CHAR_IS_ATTACHED=1, **flags)

    def command(self, **values):
        """A command, and its start, whose value is the command."""
        self.put('CMD_FIFO', **values)
        self.event('S', word(self.registers['CMD_FIFO'], **values))

    def finish(self, code, sync, length=0):
        """A finish, whose value is the receipt."""
        self.event('F %x' % code, self.receipt(code, sync, length))

    def receipt(self, code, sync, length=0):
        return word(self.registers['CMDR_FIFO'], CMDR_FIFO_ERROR=code,
                    CMDR_FIFO_BUFFER_LENGTH=length, CMDR_FIFO_SYNC=sync)

    def see_receipt(self, code, sync, length=0):
        self.steps.append(read(self.registers['CMDR_FIFO'], self.receipt(code, sync, length)))
