"""The bank that scripts speak of: its registers, its queues, its set-ups, and what calls leave of
its devices, its offload words and its open transfer.

The generator guesses a bank by its own calls, the coverage follows one by the answers. What registers
there are, and what each does, stands in docs/registers.toml; the fields of words are those of the
Python package.
"""

from tests.scripts.endings import (ALL_MOVED, ENDINGS, NO_BYTES, NO_REQUEST, NONE_MOVED,
                                   PART_MOVED, UNSENT, kind_name)
import register_table
from thymewax import OFFLOAD_CMD, OFFLOAD_SDO, Ccc, Command, Device, Ops, Register
from thymewax.formats import ENTDAA

REGISTERS = register_table.load().registers
OFFLOAD = [*OFFLOAD_CMD, *OFFLOAD_SDO]
MAPPED = [offset for one in REGISTERS for offset in one.offsets]
# Queues by their register: those that a write pushes to, those that a read takes from.
PUSHING = [one.offset for one in REGISTERS if one.row == 'pushes']
TAKING = [one.offset for one in REGISTERS if one.row == 'takes']
# Registers that take no write (`map.read-only`).
READ_ONLY = [one.offset for one in REGISTERS if one.access == 'ro']
# The registers of the watermarks, in queue order.
WATERMARKS = [one.offset for one in REGISTERS if one.word == 'watermark']
# What a burst locks (`burst.holds`).
LOCKED = {Register.OPS, *OFFLOAD}

CMD, CMDR, SDO, SDI, IBI = range(5)
QUEUES = ('CMD', 'CMDR', 'SDO', 'SDI', 'IBI')
# Those that a read takes from, by their offsets.
TAKING_QUEUES = dict(zip(TAKING, (CMDR, SDI, IBI)))
SESSION_CAPACITIES, SESSION_WATERMARKS = (4, 4, 4, 4, 4), (1, 3, 1, 3, 3)
LEAST_CAPACITIES = (2, 1, 1, 2, 1)
MOST_CAPACITY, MOST_ID = 1024, 255
# The capacities that scripts with set-ups give to each queue.
TEST_CAPACITIES = (1, 2, 3, 5, 1024)

DEVICES = 128
LONGEST = 4095
# Most commands of a burst, the longest that it carries, words of the lent output.
BURST_LENGTH, CARRIED_LENGTH, OUTPUT_WORDS = 15, 4, 16


def carried(word):
    """Whether a burst carries the command (`trigger.tests`)."""
    command = Command.of(word)
    return not command.ccc and command.length <= CARRIED_LENGTH


class Transfer:
    """An open transfer. `place` is that of its command in a burst."""

    def __init__(self, first, second, devices, place=None):
        command, ccc = Command.of(first), second is not None
        direct = ccc and Ccc.of(second).direct
        self.entdaa = ccc and Ccc.of(second).code == ENTDAA
        self.read = command.read and not self.entdaa
        self.write = not command.read and not self.entdaa
        self.length = 0 if self.entdaa else command.length
        self.address = command.address
        self.by_device = direct or not ccc
        self.attached = not self.by_device or devices[self.address].attached
        self.moved = 0
        self.requests = NO_REQUEST
        self.place = place
        self.kind = kind_name(self, ccc, direct, command.header)

    def state(self):
        """What decides on the codes that end it, beside its kind."""
        if self.entdaa:
            return self.requests
        if self.length == 0:
            return NO_BYTES
        if self.moved == 0:
            return NONE_MOVED
        return ALL_MOVED if self.moved == self.length else PART_MOVED

    def endings(self):
        """The codes that end it (`finish.codes`)."""
        return ENDINGS[self.kind][self.state()]

    def needed(self):
        """The words that its payload needs (`units.apart`)."""
        return -(-self.length // 4)

    def removes(self, code):
        """Whether its payload leaves SDO as it ends with the code (`finish.removal`)."""
        return self.write and self.place is None and code in UNSENT

    def part(self):
        """Whether bytes are gathered or left in a part of a word."""
        return self.moved % 4 != 0


class Bank:
    """What scripts leave in a bank, as far as both generator and coverage need it."""

    def __init__(self):
        self.held = True
        self.devices = [Device(address, store=False) for address in range(DEVICES)]
        self.ops = Ops()
        self.offload_commands = [0] * len(OFFLOAD_CMD)
        self.transfer = None

    def store(self, offset, word):
        """A write to DEV_CHAR, OPS or an offload command; others leave all this."""
        if offset == Register.DEV_CHAR:
            device = Device.of(word)
            if device.store:
                self.devices[device.address] = device
        elif offset == Register.OPS:
            self.ops = Ops.of(word)
        elif offset in OFFLOAD_CMD:
            self.offload_commands[OFFLOAD_CMD.index(offset)] = word

    def in_burst(self):
        return self.transfer is not None and self.transfer.place is not None

    def burst_words(self):
        return self.offload_commands[:self.ops.offload_length]

    def burst_reads(self):
        return sum(Command.of(word).read for word in self.burst_words())

    def is_short(self, lent):
        """Whether a burst is open and an output of so many words is too short for its reads."""
        return self.in_burst() and lent < self.burst_reads()
