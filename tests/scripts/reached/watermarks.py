"""Follows the watermarks that a script writes (`watermark.keeps`), and the sources that move."""

from tests.scripts.bank import QUEUES, TAKING_QUEUES, WATERMARKS
from tests.scripts.reached.followed import DONE, Followed
from tests.scripts.reached.situations import (ABOVE, BURST_OPEN, LEFT, LOW_BYTE_FITS, MISSES, MOST,
                                              NONE, PENDING_BITS, READ_AS_SET_UP, READ_AS_WRITTEN,
                                              WITH_HIGH_BITS, mark_kept, mark_miss, mark_switches,
                                              mark_written, pending_stays)
from thymewax import Number

# The offset of the word that an offset lies in, and the bits of a watermark.
WORD_OF, MARK_BITS = 0xfffc, 0xffff


def marked_queue(offset):
    """The queue whose watermark an offset has, or has a part of."""
    word = offset & WORD_OF
    return WATERMARKS.index(word) if word in WATERMARKS else None


class Watermarks(Followed):
    """Reads and writes of the watermarks."""

    def look_at_sources(self, letter, fields):
        """Ahead of each call: one that may move the sources by itself makes them unknown."""
        offset = fields[0] if letter in 'RW' else None
        leaves = (offset not in TAKING_QUEUES if letter == 'R'
                  else letter == 'W' and marked_queue(offset) is not None)
        if not leaves:
            self.shown = self.marked = None

    def write_mark(self, queue, word, number):
        name, size, mark = QUEUES[queue], self.capacities[queue], word & MARK_BITS
        if number == Number.NO_REGISTER and mark > size:
            self.note('write: 4 before 30')
        elif number == Number.WATERMARK_ABOVE_CAPACITY:
            if mark == size + 1:
                self.note_mark(queue, ABOVE)
                self.note('%s of %d, watermark %s' % (name, size, ABOVE))
            if mark & 0xff <= size:
                self.note(name + LOW_BYTE_FITS)
            self.left.add(queue)
        elif number == DONE:
            if mark == 0:
                self.note_mark(queue, NONE)
            if mark == size:
                self.note_mark(queue, MOST)
                self.note('%s of %d, watermark %s' % (name, size, MOST))
            if mark != word:
                self.note_mark(queue, WITH_HIGH_BITS)
            self.set_mark(queue, mark)

    def note_mark(self, queue, value):
        phase = BURST_OPEN if self.in_burst() else self.phase()
        self.note(mark_written(QUEUES[queue], value, phase))

    def set_mark(self, queue, mark):
        self.marks[queue] = mark
        self.as_set_up.discard(queue)
        self.left.discard(queue)
        self.over_reset.discard(queue)
        if self.marked not in (None, queue):
            self.shown = None
        self.marked = queue

    def read_mark(self, queue, value):
        """Those count that show what was written or set up."""
        name = QUEUES[queue]
        if value != self.marks[queue]:
            return
        if queue in self.as_set_up:
            self.note(name + READ_AS_SET_UP)
        elif value != self.first_marks[queue]:
            self.note(name + READ_AS_WRITTEN)
        if queue in self.left:
            self.note(name + LEFT)
        if queue in self.over_reset:
            self.note(mark_kept(name, self.held))

    def marks_over_reset(self):
        """Those that would be read otherwise if the reset had gone back to the set-up."""
        self.over_reset = {queue for queue, mark in enumerate(self.marks)
                           if mark != self.first_marks[queue]}

    def note_miss(self, letter, offset):
        if offset in MISSES:
            self.note(mark_miss(letter, offset))

    def read_sources(self, value):
        """What the one watermark that was written since the last read has moved."""
        queue = self.marked
        if self.shown is not None and queue is not None:
            if value ^ self.shown == 1 << queue:
                self.note(mark_switches(QUEUES[queue], value >> queue & 1, self.held))
            for bit in PENDING_BITS:
                if value & self.shown & 1 << bit:
                    self.note(pending_stays(QUEUES[queue], bit))
        self.shown, self.marked = value, None
