"""Follows the reads that take a word, and what they show of an empty queue (`take.empty`)."""

from tests.scripts.bank import QUEUES, SDI, TAKING_QUEUES
from tests.scripts.reached.followed import DONE, Followed
from tests.scripts.reached.situations import (AFTER_A_BURST, AFTER_ANOTHER, AGAIN, ANOTHER_AT_HEAD,
                                              BESIDE, NEVER_READ, OLD_WORDS, REFUSED_BANK, SHOWN,
                                              WRITTEN_TO, empty_before_words, read_before)
from thymewax import Number

# The offset of the word that an offset lies in.
WORD_OF = 0xfffc
# Refusals that have no value, whatever the queue has to show.
REFUSALS = {('R', Number.NOT_WELL_FORMED): REFUSED_BANK, ('R', Number.NO_REGISTER): BESIDE,
            ('W', Number.DROPPED_READ_ONLY): WRITTEN_TO}


class EmptyReads(Followed):
    """Reads of CMDR, SDI and IBI. A word of 0 is not counted: it looks as if there were none."""

    def taking_read(self, queue, value, number):
        """Of empty reads those count that show what the reads before gave."""
        if number == DONE:
            self.take(queue, value)
        elif number == Number.EMPTY and value == self.latest.get(queue, 0):
            if value:
                self.note_shown(queue)
            elif queue not in self.latest:
                self.note_none_read(queue)

    def take(self, queue, word):
        self.stored[self.place(queue, self.taken[queue])] = word
        self.taken[queue] += 1
        self.latest[queue] = word
        self.last_read = queue
        self.empty.discard(queue)
        if queue == SDI:
            self.burst_has_read = False

    def note_shown(self, queue):
        """A word was read since the release."""
        name, size, word = QUEUES[queue], self.capacities[queue], self.latest[queue]
        self.note(name + (AGAIN if queue in self.empty else SHOWN))
        self.empty.add(queue)
        if self.latest[self.last_read] != word:
            self.note(name + AFTER_ANOTHER)
        if self.burst_has_read:
            self.note(name + AFTER_A_BURST)
        if self.taken[queue] > size:
            self.note('%s of %d empty, wrapped' % (name, size))
            if self.stored.get(self.place(queue, self.taken[queue])) not in (None, word):
                self.note(name + ANOTHER_AT_HEAD)

    def note_none_read(self, queue):
        """No word was read since the release; the head is at the first place."""
        name = empty_before_words(QUEUES[queue], self.held)
        if queue not in self.forgotten:
            self.note(name + NEVER_READ)
        elif self.forgotten[queue]:
            self.note(name + read_before(self.began))
        # A word at the head, and one where the word before the head would be.
        if all(self.stored.get(self.place(queue, count)) for count in (0, -1)):
            self.note(name + read_before(self.began) + OLD_WORDS)

    def note_refused(self, letter, offset, number):
        """Another refusal at such a queue, or beside it, after a word was read from it."""
        beside = number == Number.NO_REGISTER
        queue = TAKING_QUEUES.get(offset & WORD_OF if beside else offset)
        # A refused set-up forgets the words.
        words = self.forgotten if self.refused else self.latest
        if words.get(queue) and (letter, number) in REFUSALS:
            self.note(QUEUES[queue] + REFUSALS[letter, number])
