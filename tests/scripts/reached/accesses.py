"""Follows accesses: resets, queues, pending bits, what is stored."""

from tests.scripts.bank import CMD, CMDR, IBI, LOCKED, SDO, TAKING_QUEUES
from tests.scripts.endings import REQUEST_OPEN
from tests.scripts.reached.empty_reads import WORD_OF, EmptyReads
from tests.scripts.reached.followed import CMDR_PENDING, DAA_PENDING, DONE, IBI_PENDING
from tests.scripts.reached.possible import name_at
from tests.scripts.reached.situations import BITS, BY_RESET, PENDING_BITS
from tests.scripts.reached.watermarks import Watermarks, marked_queue
from thymewax import Config, Number, Register

CONFIG = int(Config.IBI_CONFIG_ENABLE | Config.IBI_CONFIG_LISTEN)
# The source bit that the read which empties a queue clears.
CLEARED_BY_READ = {CMDR: CMDR_PENDING, IBI: IBI_PENDING}


class Accesses(EmptyReads, Watermarks):
    """Reads and writes."""

    def count_access(self, letter, offset, number):
        self.counts.accesses[letter, name_at(offset), self.held, number] += 1
        if number == Number.NO_REGISTER:
            self.note_miss(letter, offset)

    def call_W(self, offset, word, _, number):
        self.count_access('W', offset, number)
        if self.in_burst() and number == Number.NO_REGISTER and offset & WORD_OF in LOCKED:
            self.note('write: 4 before 6')
        queue = marked_queue(offset)
        if queue is not None:
            self.write_mark(queue, word, number)
            return
        if number != DONE:
            self.note_refused('W', offset, number)
            return
        if offset == Register.CMD_FIFO:
            self.cmd.append(word)
            self.push(CMD, word)
        elif offset == Register.SDO_FIFO:
            self.push(SDO, word)
            self.source &= ~DAA_PENDING
        elif offset == Register.ENABLE:
            self.write_enable(word & 1)
        elif offset == Register.IRQ_PENDING:
            self.write_pending(word)
        elif offset == Register.IBI_CONFIG:
            self.config = word & CONFIG
        else:
            self.store(offset, word)

    def write_enable(self, bit):
        if bit:
            self.note_reset()
            self.clear()
            self.marks_over_reset()
            self.began = BY_RESET
            self.source = 0
        elif not self.held and self.transfer:
            self.note('release when released, %s open'
                      % ('burst' if self.in_burst() else 'transfer'))
        self.held = bit == 1

    def note_reset(self):
        transfer = self.transfer
        if self.held:
            self.note('reset in reset')
        if not transfer:
            return
        if self.in_burst():
            self.note('reset in a burst')
            if transfer.moved:
                self.note('reset in a burst, bytes %s' % ('received' if transfer.read else 'sent'))
            return
        self.note('reset during ' + transfer.kind)
        if transfer.part():
            self.note('reset with bytes gathered' if transfer.read else 'reset with bytes left')
        if transfer.requests == REQUEST_OPEN:
            self.note('reset with a request open')

    def write_pending(self, word):
        for bit in PENDING_BITS:
            if word & self.source & 1 << bit:
                self.note('bit %d cleared by a write' % bit)
        self.source &= ~word

    def call_R(self, offset, value, number):
        self.count_access('R', offset, number)
        if offset in TAKING_QUEUES:
            self.taking_read(TAKING_QUEUES[offset], value, number)
        elif number != DONE:
            self.note_refused('R', offset, number)
        elif offset == Register.OPS and self.in_burst():
            self.note('OPS read in a burst')
        elif marked_queue(offset) is not None:
            self.read_mark(marked_queue(offset), value)
        elif offset == Register.IRQ_SOURCE:
            self.source = value
            self.read_sources(value)
            for bit in BITS:
                self.note('source bit %d read as %d' % (bit, value >> bit & 1))
        elif offset == Register.IRQ_PENDING:
            for bit in BITS:
                if value >> bit & 1:
                    self.note('pending bit %d read as 1' % bit)

    def take(self, queue, word):
        super().take(queue, word)
        if self.level(queue) == 0:
            self.source &= ~CLEARED_BY_READ.get(queue, 0)
