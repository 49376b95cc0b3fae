"""Steps and scenarios of accesses: every register, offsets without one, devices, modes, pending
bits."""

from tests.scripts.bank import DEVICES, MAPPED, OFFLOAD, PUSHING, READ_ONLY, TAKING, WATERMARKS
from tests.scripts.generator.moves import (ABLE, ADDRESSES, ATTACHED, DETACHED, EVEN, HEARD,
                                           SILENT, STORE, UNHEARD, Moves)
from tests.scripts.generator.script import SHOWING
from thymewax import Device, Irq, Register

# Registers whose write touches no queue, no device, no mode and no hold.
PLAIN = [Register.SCRATCH] * 4 + [Register.IRQ_MASK] * 12 + OFFLOAD
# Offsets without a register, next to one or like one.
NEAR_MISSES = [0x00c, 0x03c, 0x044, 0x07c, 0x08c, 0x0bc, 0x0ec, 0x0fc, 0x104, 0x13c,
               0x144, 0x17c, 0x184, 0x1fc, 0x214, 0x2bc, 0x340, 0x3fc, 0x400, 0x10d4, 0x8040,
               0xfffc]
# The bits that a write to IRQ_PENDING clears, and all sources.
CLEARED = [Irq.CMDR_PENDING, Irq.IBI_PENDING, Irq.DAA_PENDING]
ALL_SOURCES = 0xff
# DEV_CHAR: the address, and the bits without a name.
ADDRESS_FIELD = Device(DEVICES - 1, store=False).word
UNNAMED = 0xffffffff & ~(ADDRESS_FIELD | ABLE)


class Registers(Moves):
    """Accesses."""

    # Steps.

    def look(self):
        for _ in self.times(3):
            self.script.read(self.source.pick(SHOWING))

    def any_read(self):
        self.script.read(self.source.pick(MAPPED))

    def plain_write(self):
        self.script.write(self.source.pick(PLAIN), self.source.word())

    def queue_access(self):
        self.script.write(self.source.pick(READ_ONLY), self.source.word())
        if self.guess.held:
            self.script.write(self.source.pick(PUSHING), self.source.word())
            self.script.read(self.source.pick(TAKING + PUSHING))

    def bad_offset(self):
        source = self.source
        offset = source.pick([source.pick(NEAR_MISSES), source.below(0x10000),
                              source.pick(MAPPED) + 1 + source.below(3)])
        if offset in MAPPED:
            offset += 1
        if source.one_in(2):
            self.script.read(offset)
        else:
            self.script.write(offset, source.word())

    def device(self):
        source = self.source
        address = source.below(DEVICES) if source.one_in(8) else source.pick(ADDRESSES)
        flags = source.pick([ATTACHED, SILENT, ABLE, ABLE, UNHEARD, DETACHED])
        if source.one_in(4):
            flags = source.word() & ~ADDRESS_FIELD
        self.set_device(address, flags)
        self.script.read(Register.DEV_CHAR)

    def mode(self):
        """Offload mode, a few starts in it, and mostly back again."""
        self.script.write(Register.OPS, self.source.word() | 1)
        for _ in self.times(2):
            self.script.start()
        if not self.source.one_in(3):
            self.script.write(Register.OPS, self.source.word() & EVEN)

    def pending(self):
        self.script.read(Register.IRQ_SOURCE)
        self.script.read(Register.IRQ_PENDING)
        value = self.source.pick([*CLEARED, ALL_SOURCES, 0x1f, 0xffffff00, self.source.word()])
        self.script.write(Register.IRQ_PENDING, value)
        self.script.read(Register.IRQ_SOURCE)

    def drain(self):
        offset = self.source.pick(TAKING)
        for _ in self.times(5):
            self.script.read(offset)

    # Scenarios.

    def register_tour(self):
        """Reads and writes each register, in an order of its own."""
        offsets = list(MAPPED)
        while offsets:
            offset = offsets.pop(self.source.below(len(offsets)))
            value = self.source.word()
            if offset == Register.ENABLE:
                value = value & EVEN | self.guess.held
            for _ in range(2):
                if self.source.one_in(2):
                    self.script.read(offset)
                    self.script.write(offset, value)
                else:
                    self.script.write(offset, value)
                    self.script.read(offset)

    def look_back(self):
        """Reads what a reset leaves as it is."""
        for offset in (Register.SCRATCH, Register.IRQ_MASK, Register.OPS, Register.DEV_CHAR,
                       *WATERMARKS):
            self.script.read(offset)
        for _ in range(4):
            self.script.read(self.source.pick(OFFLOAD))

    def prepare(self):
        """Interrupts heard, no offload, most devices attached."""
        self.script.write(Register.OPS, self.source.word() & EVEN)
        self.script.write(Register.IBI_CONFIG, HEARD)
        self.script.write(Register.IRQ_MASK, self.source.word())
        for address in ADDRESSES:
            flags = self.source.pick([ABLE, ABLE, SILENT, UNHEARD, DETACHED])
            self.set_device(address, flags)

    def device_tour(self):
        """Writes the flags of each device, resets, and reads them."""
        for address in range(DEVICES):
            unnamed = self.source.word() & UNNAMED
            flags = self.source.below(8) << 1 | self.source.below(4) // 3 << 8 ^ STORE
            self.set_device(address, unnamed | flags)
            if self.source.one_in(4):
                self.script.read(Register.DEV_CHAR)
        self.script.write(Register.ENABLE, 1)
        for address in range(DEVICES):
            self.set_device(address, self.source.word() & 0xff)
            self.script.read(Register.DEV_CHAR)
        self.release()
