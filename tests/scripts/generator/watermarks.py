"""Watermarks that the driver writes: each value that counts in each phase, and what it does to the
sources."""

from tests.scripts.bank import CMD, QUEUES, SDO, WATERMARKS
from tests.scripts.generator.bursts import Bursts
from thymewax import Command, Register

# Bits that a watermark does not have, and two that are too many for any queue.
HIGH_HALF, TOO_MANY = 0xffff0000, (0x0800, 0x8000)


class Watermarks(Bursts):
    """Writes and reads of 0x200 to 0x210."""

    # The step.

    def watermark(self):
        """Near the level or an end, so that a source may change."""
        queue = self.source.below(len(QUEUES))
        size, level = self.guess.capacities[queue], self.guess.level(queue)
        self.write_mark(queue, self.source.pick(
            [0, 1, level, level + 1, size // 2, size - 1, size, size + 1, self.source.word()]))
        self.script.read(self.source.pick([WATERMARKS[queue], Register.IRQ_SOURCE]))

    # The scenario.

    def watermarks(self):
        """In reset, idle, in a transfer and in a burst; then over a reset. It ends in reset."""
        self.hold()
        self.each_value()
        self.switch(CMD)
        self.switch(SDO)
        address = self.fresh()
        self.each_value()
        self.all_pending(address)
        self.each_value()
        for queue in range(len(QUEUES)):
            self.switch(queue)
        self.script.write(Register.SDO_FIFO, self.source.word())
        self.switch(SDO)
        if self.test:
            self.fresh()
            self.load_burst([Command(address, 1).word])
            self.script.trigger()
            self.each_value()
        self.any_marks()
        self.hold()
        self.read_marks()
        self.release()
        self.read_marks()
        self.hold()

    def all_pending(self, address):
        """All three pending bits, a word or two in every queue but SDO, an assignment open."""
        self.word_in_each(address)
        self.script.read(Register.SDI_FIFO)
        self.start_assignment()
        self.script.address_request()
        self.script.write(Register.CMD_FIFO, self.empty_write(address))

    def each_value(self):
        """Both ends of each range, one more, bits that do not count, and offsets beside."""
        first = self.source.below(len(QUEUES))
        for step in range(len(QUEUES)):
            queue = (first + step) % len(QUEUES)
            size = self.guess.capacities[queue]
            fits = self.source.below(size + 1)
            for value in (0, size, size + 1, HIGH_HALF | fits, self.source.pick(TOO_MANY) | fits):
                self.write_mark(queue, value)
                self.script.read(WATERMARKS[queue])
            self.beside(WATERMARKS[queue] + 1 + self.source.below(3), size + 1)
        self.beside(WATERMARKS[-1] + 4, 0)
        self.beside(WATERMARKS[0] + 2, 0)

    def beside(self, offset, value):
        self.script.write(offset, value)
        self.script.read(offset)

    def switch(self, queue):
        """The level itself, the marks next to it and back; sources are read before and after."""
        level, size = self.guess.level(queue), self.guess.capacities[queue]
        self.script.read(Register.IRQ_SOURCE)
        for mark in (level, level + 1, level, level - 1, level):
            if 0 <= mark <= size:
                self.write_mark(queue, mark)
                self.script.read(Register.IRQ_SOURCE)

    def any_marks(self):
        for queue, size in enumerate(self.guess.capacities):
            self.write_mark(queue, self.source.below(size + 1))

    def read_marks(self):
        for offset in WATERMARKS:
            self.script.read(offset)

    def write_mark(self, queue, value):
        self.script.write(WATERMARKS[queue], value)
