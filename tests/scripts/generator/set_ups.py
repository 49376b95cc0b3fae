"""Set-ups: capacities and watermarks in turn, numbers out of range, calls on a refused bank."""

from tests.scripts.bank import (DEVICES, LEAST_CAPACITIES, MOST_CAPACITY, MOST_ID, QUEUES,
                                TAKING, TEST_CAPACITIES, WATERMARKS)
from tests.scripts.endings import CODES
from tests.scripts.generator.guess import Guess
from tests.scripts.generator.moves import Moves
from tests.scripts.lines import SESSION_SET_UP, SET_UP, SHOW
from thymewax import Register
from thymewax.calls import DIGITS, TRIGGER

SMALL_CAPACITIES = [1, 2, 3, 5, 8]


class SetUps(Moves):
    """Set-ups, for --test."""

    def __init__(self, script, seed):
        super().__init__(script, seed)
        self.faults = seed

    def set_up(self, number):
        capacities = self.capacities(number)
        ident = (0, MOST_ID, self.source.below(MOST_ID + 1))[number % 3]
        watermarks = self.first_marks(capacities, number // 2 + self.seed)
        self.script.put_call(SET_UP, (*capacities, *watermarks, ident))
        self.script.guess = Guess(capacities)

    def capacities(self, number):
        """Five capacities. Five even rounds after one another give each queue each of the test's
        capacities; odd rounds have small ones."""
        turn, lap = number // 2 % 5, number // 10 % 4
        sizes = [TEST_CAPACITIES[(turn + queue * (1 + lap) + self.seed) % 5] for queue in range(5)]
        if number % 2:
            sizes = [self.source.pick(SMALL_CAPACITIES) for _ in range(5)]
        return [size if size >= least else 4 for size, least in zip(sizes, LEAST_CAPACITIES)]

    def first_marks(self, capacities, turn):
        return [(0, size, 1, size, size - 1, size // 2)[(turn + queue) % 6]
                for queue, size in enumerate(capacities)]

    def refused_set_ups(self):
        for _ in range(3):
            self.spoiled_set_up()
            self.script.put_call(SET_UP, tuple(self.refused_numbers()))
            self.script.guess = Guess([0] * len(QUEUES))
            for _ in self.times(8):
                letter = self.source.pick([*DIGITS, TRIGGER, SHOW])
                self.script.call(letter, *self.script.any_values(letter))
            self.calls_after_refusal()

    def calls_after_refusal(self):
        """Calls that would have another number in a bank that is well formed."""
        for letter, *values in (('R', 1), ('W', Register.VERSION, 0), ('W', Register.ENABLE, 0),
                                ('F', len(CODES)), ('I', DEVICES, 0),
                                *(('R', offset) for offset in TAKING),
                                ('W', self.source.pick(WATERMARKS), 0xffff)):
            if self.source.one_in(4):
                self.script.put_call(letter, tuple(values))

    def spoiled_set_up(self):
        """A set-up line that is no call."""
        fields = SESSION_SET_UP.split(b' ')
        line = self.source.pick([b' '.join(fields[:-1]), b' '.join(fields + [b'0']),
                                 b'b' + SESSION_SET_UP[1:], SESSION_SET_UP + b' ',
                                 b' '.join(fields[:-1] + [b'000000000']),
                                 SESSION_SET_UP.replace(b' ', b'  ', 1), b'B'])
        self.script.put(line)

    def refused_numbers(self):
        """Eleven numbers, one of them out of range, each in its turn."""
        sizes = [self.source.pick(TEST_CAPACITIES[1:]) for _ in range(5)]
        watermarks = self.first_marks(sizes, self.source.below(6))
        numbers = sizes + watermarks + [self.source.below(MOST_ID + 1)]
        place = self.faults % 11
        high = self.faults // 11 % 2 == 0
        self.faults += 1
        if place == 10:
            numbers[10] = self.source.pick([MOST_ID + 1] * 2 + [0x10000, 0xffffffff])
        elif place >= 5:
            numbers[place] = self.source.pick([sizes[place - 5] + 1] * 3 + [0x10000, 0xffffffff])
        elif high:
            numbers[place] = self.source.pick([MOST_CAPACITY + 1] * 2
                                              + [2048, 0x10004, 0x80000004, 0xffffffff])
        else:
            numbers[place] = self.source.below(LEAST_CAPACITIES[place])
            numbers[place + 5] = min(numbers[place + 5], numbers[place])
        return numbers
