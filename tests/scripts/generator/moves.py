"""What all steps and scenarios are made of: a fresh bank, commands, bytes, endings."""

from tests.scripts.bank import SDI
from tests.scripts.endings import CODES, NO_ERROR
from thymewax import Command, Config, Device, Register
from thymewax.formats import ENTDAA

# The eight addresses of most devices.
ADDRESSES = [0x00, 0x01, 0x08, 0x09, 0x2a, 0x55, 0x7e, 0x7f]
# A kind of command: CCC, direct, header, read.
PRIVATE_KINDS = [(0, 0, header, read) for header in (0, 1) for read in (0, 1)]
CCC_KINDS = [(1, direct, header, read)
             for direct in (0, 1) for header in (0, 1) for read in (0, 1)]
# What a write to DEV_CHAR stores: no flag; all flags; all but attached; attached alone; attached
# and able to interrupt, with no byte; attached with a byte, not able to interrupt.
STORE, ABLE, DETACHED, ATTACHED, SILENT, UNHEARD = (
    Device(0, *flags).word for flags in (
        (), (True, True, True), (False, True, True), (True,), (True, True), (True, False, True)))
# Interrupt requests are heard and acknowledged.
HEARD = Config.IBI_CONFIG_LISTEN | Config.IBI_CONFIG_ENABLE
# The code of a broadcast CCC in place of ENTDAA's.
OTHER_CODE = 0x27
# An address word with the right parity bit.
ADDRESS_WORD = 0x10000000
# A queue up to this capacity is filled at every occasion, a larger one by the rings alone.
SMALL = 8
# All bits but the lowest.
EVEN = 0xfffffffe
# Bytes of a word.
BYTES = 4


class Moves:
    """A script, and the moves that steps and scenarios share."""

    def __init__(self, script, seed):
        self.script = script
        self.source = script.source
        self.seed = seed
        self.test = script.test

    @property
    def guess(self):
        return self.script.guess

    def times(self, most):
        return range(1 + self.source.below(most))

    # The bank.

    def hold(self):
        self.script.write(Register.ENABLE, self.source.word() | 1)

    def release(self):
        value = self.source.pick([0, 0, EVEN, self.source.word() & EVEN])
        self.script.write(Register.ENABLE, value)

    def set_device(self, address, flags):
        """Selects a device; with the bit to store, its flags are these."""
        self.script.write(Register.DEV_CHAR, Device(address, store=False).word | flags)

    def fresh(self, flags=ABLE):
        """A released bank with empty queues and one device that may do all."""
        if not self.guess.held:
            self.script.write(Register.ENABLE, 1)
        self.script.write(Register.ENABLE, 0)
        self.script.write(Register.OPS, 0)
        self.script.write(Register.IBI_CONFIG, HEARD)
        address = self.source.pick(ADDRESSES)
        self.set_device(address, flags)
        return address

    # Commands.

    def command_words(self, kind, length, address):
        """The words of one command; unnamed bits are set at times."""
        source = self.source
        ccc, direct, header, read = kind
        unnamed = source.below(512) << 23 if source.one_in(4) else 0
        first = unnamed | Command(address, length, read, ccc, header, source.below(2)).word
        if not ccc:
            return [first]
        code = source.below(128)
        if source.one_in(6) or (code == ENTDAA and not direct):
            code = ENTDAA if direct else OTHER_CODE
        unnamed = source.below(1 << 24) << 8 if source.one_in(4) else 0
        return [first, unnamed | direct << 7 | code]

    def entdaa_words(self):
        first = self.source.word() | Command(ccc=True).word
        unnamed = self.source.below(1 << 24) << 8 if self.source.one_in(4) else 0
        return [first, unnamed | ENTDAA]

    def empty_write(self, address):
        """The command of a private write of length 0, with any unnamed bits."""
        unnamed = self.source.below(512) << 23
        return unnamed | Command(address, repeated_start=self.source.below(2)).word

    def open_transfer(self, *command):
        """A private transfer: address, length, and whether it is a read."""
        self.script.write(Register.CMD_FIFO, Command(*command).word)
        self.script.start()

    def start_assignment(self):
        for word in self.entdaa_words():
            self.script.write(Register.CMD_FIFO, word)
        self.script.start()

    def quick_receipt(self, address):
        self.script.write(Register.CMD_FIFO, self.empty_write(address))
        self.script.start()
        self.script.finish(NO_ERROR)

    # Words to read.

    def word_in_each(self, address):
        """A receipt, the word of its read, and an interrupt."""
        self.open_transfer(address, BYTES, True)
        for _ in self.times(BYTES):
            self.script.receive()
        self.script.finish(NO_ERROR)
        self.script.interrupt(address)

    # In a transfer.

    def move_bytes(self, read, count):
        """Bytes of a burst need no queue."""
        for _ in range(count):
            if read:
                if self.guess.sdi == self.guess.capacities[SDI] and not self.guess.in_burst():
                    self.script.read(Register.SDI_FIFO)
                self.script.receive()
            else:
                if not self.guess.sdo and not self.guess.in_burst():
                    self.script.write(Register.SDO_FIFO, self.source.word())
                self.script.send()

    def wrong_endings(self):
        """All codes that probably do not end the transfer."""
        endings = self.guess.transfer.endings()
        first = self.source.below(len(CODES))
        for step in CODES:
            code = (first + step) % len(CODES)
            if code not in endings:
                self.script.finish(code)

    def other_event(self):
        """An event that is probably refused while a transfer is open."""
        script, address = self.script, self.source.pick(ADDRESSES)
        events = [script.start, script.send, script.receive, script.address_request,
                  script.address_take, lambda: script.interrupt(address)]
        self.source.pick(events + [script.trigger] if self.test else events)()
