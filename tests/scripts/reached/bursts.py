"""Follows offload bursts: triggers, the output that is lent, the transfers of a burst."""

from tests.scripts.bank import CARRIED_LENGTH, CMDR, QUEUES, SDI, SDO, Transfer, carried
from tests.scripts.endings import NO_ERROR, UNSENT
from tests.scripts.reached.followed import BURST, DIRECT, DONE, Followed
from thymewax import Command, Number
from thymewax.calls import TRIGGER

# The bits of a length that a length up to CARRIED_LENGTH has.
LOW_BITS = 7


def reads_in(words):
    return sum(Command.of(word).read for word in words)


class Bursts(Followed):
    """Bursts."""

    def lend(self, count):
        self.lent = count
        self.written.clear()
        if self.in_burst():
            self.note('output changed in a burst, '
                      + ('too short' if self.is_short(self.lent) else 'long enough'))

    def show(self, place):
        self.note('output word %d shown, %s'
                  % (place, 'written' if place in self.written else 'not written'))

    def note_short(self, letter, fields, number):
        """An event in an open burst whose output is too short."""
        transfer = self.transfer
        later = {Number.NO_ROOM: number == Number.OUT_OF_RANGE}
        if number == Number.NO_ROOM:
            self.note('%s: 13 in a burst' % letter)
            later = {Number.TRANSFER_OPEN: letter in ('S', TRIGGER, 'I'),
                     Number.NOT_ATTACHED: not transfer.attached,
                     Number.NOT_THIS_KIND: letter in 'DA' or transfer.read == (letter == 'T'),
                     Number.LENGTH_REACHED: transfer.moved == transfer.length,
                     Number.ENDING_NOT_ALLOWED: letter == 'F'
                     and fields[0] not in transfer.endings()}
        self.note_order(letter, number, later)

    # Triggers.

    def call_G(self, _, number):
        words, reads = self.burst_words(), self.burst_reads()
        wrong = [place for place, word in enumerate(words) if not carried(word)]
        if number in (Number.HELD_IN_RESET, Number.TRANSFER_OPEN, Number.NOT_IN_THIS_MODE,
                      Number.NOT_CARRIED):
            self.note_order(TRIGGER, number, {
                Number.NOT_IN_THIS_MODE: not self.ops.offload,
                Number.BURST_HAS_NO_COMMANDS: not words, Number.NOT_CARRIED: bool(wrong),
                Number.NO_ROOM: self.lent < reads and not self.in_burst()})
        if number == Number.NOT_CARRIED:
            self.note_not_carried(words, wrong)
        if number == Number.NO_ROOM and self.lent == reads - 1:
            self.note('trigger, output too short by one')
        if number == DONE:
            self.open_burst(reads)

    def note_not_carried(self, words, wrong):
        if wrong[0] == 0:
            self.note('trigger, not carried at the first place')
        if wrong == [len(words) - 1]:
            self.note('trigger, not carried at the last place')
        if len(wrong) == 1:
            command = Command.of(words[wrong[0]])
            if command.ccc:
                self.note('trigger, CCC not carried')
            else:
                self.note('trigger, length above 4 not carried')
                if command.length & LOW_BITS <= CARRIED_LENGTH:
                    self.note('trigger, length with low bits up to 4 not carried')

    def open_burst(self, reads):
        if not reads and not self.lent:
            self.note('trigger, no reads and no output')
        elif reads:
            self.note('trigger, output ' + ('fits' if self.lent == reads else 'longer'))
        if not carried(self.offload_commands[self.ops.offload_length]):
            self.note('burst, last command not carried past the length')
        if self.last_closed == DIRECT:
            self.note('burst after a direct transfer')
        self.at_trigger = list(self.devices)
        self.empty_write_before = False
        self.open_in_burst(0)

    def open_in_burst(self, place):
        words = self.burst_words()
        if place == len(words):
            self.transfer = None
            self.last_closed = BURST
            self.note('burst of %d commands finished' % place)
            return
        self.transfer = Transfer(words[place], None, self.devices, place)
        before = self.at_trigger[self.transfer.address].attached
        if self.transfer.attached and not before:
            self.note('burst, attached since the trigger')
        if before and not self.transfer.attached:
            self.note('burst, detached since the trigger')

    # The transfers of a burst.

    def note_burst_send(self):
        place = self.transfer.place
        data_place = place - reads_in(self.burst_words()[:place])
        self.note('burst, bytes of data word %d' % data_place)
        if data_place != place:
            self.note('burst, data word and command at different places')
        if self.empty_write_before:
            self.note('burst, data word passed over by a write without bytes')
        self.note('burst byte sent, SDO ' + ('not empty' if self.level(SDO) else 'empty'))

    def finish_in_burst(self, code):
        transfer = self.transfer
        place = transfer.place
        if transfer.read:
            self.note('burst, read of %d, %d received' % (transfer.length, transfer.moved))
            self.written.add(reads_in(self.burst_words()[:place]))
            self.burst_has_read |= transfer.moved > 0
        elif code == NO_ERROR:
            self.note('burst, write of %d, all sent' % transfer.length)
        if not transfer.read and not transfer.moved:
            self.empty_write_before = True
            if code in UNSENT and transfer.length and self.level(SDO):
                self.note('burst, write ended with %d, data stays in SDO' % code)
        for queue in (CMDR, SDI):
            if self.room(queue) == 0:
                self.note('burst finish, %s full' % QUEUES[queue])
        self.open_in_burst(place + 1)
        self.note('burst, code %d and %s' % (code, 'on' if self.transfer else 'closed'))
