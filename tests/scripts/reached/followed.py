"""A bank that is followed by the answers to a script: its queues, and what is counted of it."""

from collections import deque

from tests.scripts.bank import QUEUES, SESSION_CAPACITIES, SESSION_WATERMARKS, Bank
from tests.scripts.reached.situations import (ALL_ORDERS, BY_SET_UP, IDLE, IN_RESET,
                                              TRANSFER_OPEN)
from thymewax import Irq, Number

DONE = Number.DONE
CMDR_PENDING, IBI_PENDING, DAA_PENDING = map(
    int, (Irq.CMDR_PENDING, Irq.IBI_PENDING, Irq.DAA_PENDING))
# What `last_closed` tells.
DIRECT, BURST = 'direct transfer', 'burst'


class Followed(Bank):
    """The state. `source` is what is left of the last read of IRQ_SOURCE, `written` has the words
    of the output that bursts have filled since it was lent.

    Of the queues that a read takes from: `latest` has the words read last since the reset, which
    made them `forgotten`, or the set-up did, as `began` says; `stored` the words of the store that
    are known, by their places; `empty` the queues read as empty since.

    `marks` are the watermarks, `first_marks` those of the set-up, which queues in `as_set_up` still
    have; those in `left` were refused another since, those in `over_reset` have kept theirs over a
    reset. `shown` are the sources as last read, while only the mark of `marked` was written."""

    def __init__(self, counts):
        super().__init__()
        self.counts = counts
        self.lent = 0
        self.written = set()
        self.latest, self.forgotten, self.stored = {}, {}, {}
        self.new_bank(SESSION_CAPACITIES, SESSION_WATERMARKS)

    def new_bank(self, capacities, watermarks):
        Bank.__init__(self)
        self.capacities = capacities
        self.first_marks, self.marks = watermarks, list(watermarks)
        self.as_set_up, self.left, self.over_reset = set(range(len(QUEUES))), set(), set()
        self.shown = self.marked = None
        self.config = 0
        self.source = 0
        self.refused = False
        self.last_closed = None
        self.clear()
        self.began = BY_SET_UP

    def clear(self):
        """What a reset does to it."""
        self.cmd = deque()
        self.pushed = [0] * len(QUEUES)
        self.taken = [0] * len(QUEUES)
        self.receipts = self.interrupts = 0
        self.transfer = None
        self.request_refused = False
        self.forgotten.update(self.latest)
        self.latest = {}
        self.last_read = None
        self.empty = set()
        self.burst_has_read = False

    def level(self, queue):
        return self.pushed[queue] - self.taken[queue]

    def room(self, queue):
        return self.capacities[queue] - self.level(queue)

    def place(self, queue, count):
        """Where in the store the word lies that the queue was given after so many others."""
        return sum(self.capacities[:queue]) + count % self.capacities[queue]

    def push(self, queue, word=None):
        self.stored[self.place(queue, self.pushed[queue])] = word
        self.pushed[queue] += 1
        size = self.capacities[queue]
        if self.level(queue) == size:
            self.note('%s full with head at %d' % (QUEUES[queue], self.taken[queue] % size))
            self.note('%s of %d full' % (QUEUES[queue], size))
        if self.pushed[queue] > size:
            self.note('%s of %d wrapped' % (QUEUES[queue], size))

    def phase(self):
        if self.held:
            return IN_RESET
        return TRANSFER_OPEN if self.transfer else IDLE

    def note(self, situation):
        self.counts.situations[situation] += 1

    def note_order(self, letter, number, later):
        """`later` has each number whose condition holds too."""
        for other, holds in later.items():
            if holds and (letter, number, other) in ALL_ORDERS:
                self.note('%s: %d before %d' % (letter, number, other))
