"""Reads of empty queues: before a word, after one, and with older words about."""

from tests.scripts.bank import TAKING, TAKING_QUEUES
from tests.scripts.generator.moves import BYTES, SMALL, Moves


class EmptyReads(Moves):
    """CMDR, SDI and IBI."""

    def empty_reads(self):
        """From a bank in reset to one in reset. What was read before the first reset, or the
        set-up, may not show, nor what a ring still has: each small ring is turned past its end."""
        self.read_each()
        address = self.fresh()
        self.read_each()
        sizes = [self.guess.capacities[queue] for queue in TAKING_QUEUES.values()]
        for _ in range(1 + max((size for size in sizes if size <= SMALL), default=0)):
            self.word_in_each(address)
            self.read_each()
        self.read_each()
        self.refused_accesses()
        self.read_each()
        self.hold()
        self.read_each()
        self.release()
        self.read_each()
        self.hold()

    def read_each(self):
        first = self.source.below(len(TAKING))
        for offset in TAKING[first:] + TAKING[:first]:
            self.script.read(offset)

    def refused_accesses(self):
        """They have no value, whatever the queue has to show."""
        for offset in TAKING:
            self.script.write(offset, self.source.word())
            self.script.read(offset + 1 + self.source.below(BYTES - 1))
