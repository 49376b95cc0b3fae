"""Follows set-ups: their numbers, and which one of a refused set-up is out of range."""

from tests.scripts.bank import LEAST_CAPACITIES, MOST_CAPACITY, MOST_ID, QUEUES
from tests.scripts.reached.followed import DONE, Followed


class SetUps(Followed):
    """Set-ups."""

    def set_up(self, numbers, number):
        capacities, watermarks, ident = numbers[:5], numbers[5:10], numbers[10]
        if self.transfer:
            self.note('set-up in a burst' if self.in_burst() else 'set-up during a transfer')
        if number == DONE:
            self.new_bank(capacities, watermarks)
            self.note_set_up(capacities, watermarks, ident)
        else:
            self.new_bank([0] * len(QUEUES), [0] * len(QUEUES))
            self.refused = True
            self.note_refusal(capacities, watermarks, ident)

    def note_set_up(self, capacities, watermarks, ident):
        for queue, size, mark in zip(QUEUES, capacities, watermarks):
            if mark == 0:
                self.note(queue + ' watermark 0')
            if mark == size:
                self.note(queue + ' watermark capacity')
        if ident in (0, MOST_ID):
            self.note('ID %d' % ident)

    def note_refusal(self, capacities, watermarks, ident):
        """Only a set-up with one number out of range counts."""
        faults = ['ID above 255 refused'] if ident > MOST_ID else []
        for queue, size, mark, least in zip(QUEUES, capacities, watermarks, LEAST_CAPACITIES):
            if size < least:
                faults.append(queue + ' capacity below its least refused')
            if size > MOST_CAPACITY:
                faults.append(queue + ' capacity above 1,024 refused')
            if mark > size:
                faults.append(queue + ' watermark above the capacity refused')
        if len(faults) == 1:
            self.note(faults[0])
