"""Failed writes: payloads that a finish takes out of SDO, and payloads that it leaves there."""

from thymewax import Command, Register

from tests.scripts.bank import SDO
from tests.scripts.endings import CE2, NACK, NO_ERROR, UNKNOWN
from tests.scripts.generator.endings import Endings
from tests.scripts.generator.moves import ABLE, DETACHED, SMALL

# A kind of write (CCC, direct, header, read), the flags of its device, the codes that take its
# payload out of SDO.
PRIVATE, HEADED, DIRECT, BROADCAST = (0, 0, 0, 0), (0, 0, 1, 0), (1, 1, 0, 0), (1, 0, 0, 0)
WRITES = [(PRIVATE, ABLE, (NACK,)), (HEADED, ABLE, (CE2, NACK)), (DIRECT, ABLE, (CE2, NACK)),
          (BROADCAST, ABLE, (CE2,)),
          *((kind, DETACHED, (UNKNOWN,)) for kind in (PRIVATE, HEADED, DIRECT))]
# The words in SDO against those that the length needs.
FEWER, EQUAL, MORE = 'fewer', 'equal', 'more'
# The write that follows sends at most so many words.
FOLLOWING = 3


class FailedWrites(Endings):
    """Failed writes outside bursts."""

    def failed_writes(self):
        """Each kind of write with each of its codes; SDO has fewer words than the length needs, as
        many, or more; once they lie round the end of the ring, once they come after the start."""
        if self.guess.capacities[SDO] > SMALL:
            return
        for kind, flags, codes in WRITES:
            for code in codes:
                for words in (FEWER, EQUAL, MORE):
                    self.failed_write(kind, flags, code, words, True)
                    self.failed_write(kind, flags, code, words, False)
        self.payload_stays()

    def failed_write(self, kind, flags, code, words, turned):
        """One of them, and a write behind it."""
        size = self.guess.capacities[SDO]
        address = self.turned_ring(flags) if turned else self.failing_device(flags)
        least = min(2, size)
        there = least + self.source.below(size - least + 1)
        needed = {FEWER: there + 1 + self.source.below(2), EQUAL: there, MORE: there - 1}[words]
        if turned:
            self.queue_words(there)
        length = max(4 * needed - self.source.below(4), 0)
        for word in self.command_words(kind, length, address):
            self.script.write(Register.CMD_FIFO, word)
        self.script.start()
        if not turned:
            self.queue_words(there)
        for _ in range(2):
            self.script.finish(code)
            self.script.read(Register.CMDR_FIFO)
        self.following_write(address)

    def failing_device(self, flags):
        """A fresh bank, at times with a full CMDR."""
        return (self.fill_receipts if self.source.one_in(4) else self.fresh)(flags)

    def turned_ring(self, flags):
        """A fresh bank whose SDO has its head at the last place."""
        address = self.fresh()
        count = self.guess.capacities[SDO] - 1
        self.queue_words(count)
        self.open_transfer(address, 4 * count)
        self.script.finish(NACK)
        self.script.read(Register.CMDR_FIFO)
        self.set_device(address, flags)
        return address

    def queue_words(self, count):
        for _ in range(count):
            self.script.write(Register.SDO_FIFO, self.source.word())

    def following_write(self, address):
        """Shows the words that are left, and one that is queued later."""
        self.script.read(Register.SDO_FIFO_ROOM)
        self.script.read(Register.IRQ_SOURCE)
        self.set_device(address, ABLE)
        self.queue_words(1)
        length = 4 * min(len(self.guess.sdo), FOLLOWING)
        self.open_transfer(address, length)
        for _ in range(length):
            self.script.send()
        self.script.finish(NO_ERROR)
        self.script.read(Register.CMDR_FIFO)

    def failed_round_the_end(self):
        """All words of the ring but one leave at once, then two round its end."""
        address = self.turned_ring(ABLE)
        self.queue_words(3)
        self.open_transfer(address, 8)
        self.script.finish(NACK)
        self.following_write(address)

    def payload_stays(self):
        """Endings that take no word out of SDO: of reads, of writes of no bytes, of ENTDAA."""
        for length, read in ((4, True), (0, False)):
            for code, flags in ((CE2, ABLE), (NACK, ABLE), (UNKNOWN, DETACHED)):
                address = self.fresh(flags)
                self.queue_words(1)
                self.script.write(Register.CMD_FIFO,
                                  Command(address, length, read, header=True).word)
                self.script.start()
                self.script.finish(code)
                self.following_write(address)
        self.fresh()
        self.start_assignment()
        self.queue_words(1)
        self.script.finish(CE2)
        self.script.read(Register.SDO_FIFO_ROOM)
