"""Rounds: a reset or a set-up, a scenario, and steps by weight."""

from tests.scripts.generator.burst_cases import BurstCases
from tests.scripts.generator.empty_reads import EmptyReads
from tests.scripts.generator.failed_writes import FailedWrites
from tests.scripts.generator.no_calls import NoCalls
from tests.scripts.generator.rings import Rings
from tests.scripts.generator.set_ups import SetUps
from tests.scripts.generator.transfers import Transfers
from tests.scripts.generator.watermarks import Watermarks

# The calls of the steps before a release, and after a scenario.
HELD_CALLS, ROUND_CALLS = 30, 700


def weighted(weights):
    """A list with each name as often as its weight."""
    return [name for name, weight in weights.items() for _ in range(weight)]


# Weights of the steps, by phase. `drain` is added by the mood.
HELD_STEPS = {'look': 6, 'plain_write': 4, 'any_read': 3, 'queue_access': 4, 'any_event': 10,
              'device': 3, 'config': 2, 'bad_offset': 3, 'release': 5, 'hold': 1, 'mode': 1,
              'watermark': 2}
IDLE_STEPS = {'look': 30, 'command': 45, 'data': 10, 'start': 70, 'interrupt': 40,
              'any_event': 20, 'device': 8, 'config': 6, 'mode': 2, 'plain_write': 8,
              'any_read': 6, 'queue_access': 4, 'bad_offset': 10, 'pending': 12, 'hold': 1,
              'release': 1, 'watermark': 8}
OPEN_STEPS = {'look': 30, 'move': 110, 'end': 45, 'data': 10, 'command': 8, 'any_event': 14,
              'other_event': 10, 'detach': 5, 'device': 3, 'config': 2, 'mode': 1,
              'plain_write': 4, 'any_read': 3, 'queue_access': 3, 'bad_offset': 4,
              'pending': 8, 'hold': 2, 'release': 1, 'watermark': 5}
MOOD_DRAINS = [5, 25, 80]
IDLE_TABLES = [weighted({**IDLE_STEPS, 'drain': drain}) for drain in MOOD_DRAINS]
OPEN_TABLES = [weighted({**OPEN_STEPS, 'drain': drain}) for drain in MOOD_DRAINS]
HELD_TABLE = weighted(HELD_STEPS)
MOOD_STEPS = 120
# Steps of bursts, for --test.
BURST_HELD_STEPS = {'trigger': 3, 'lend': 1, 'output': 1}
BURST_IDLE_STEPS = {'burst': 30, 'trigger': 8, 'lend': 3, 'output': 6}
BURST_OPEN_STEPS = {'trigger': 4, 'lend': 4, 'output': 4, 'locked_write': 5}
TEST_IDLE_TABLES = [table + weighted(BURST_IDLE_STEPS) for table in IDLE_TABLES]
TEST_OPEN_TABLES = [table + weighted(BURST_OPEN_STEPS) for table in OPEN_TABLES]
TEST_HELD_TABLE = HELD_TABLE + weighted(BURST_HELD_STEPS)


class Walk(Transfers, Rings, BurstCases, EmptyReads, FailedWrites, Watermarks, SetUps, NoCalls):
    """Rounds of steps and scenarios."""

    mood = 0

    def run(self):
        number = 0
        while True:
            self.round(number)
            number += 1

    def round(self, number):
        if self.test:
            self.refused_set_ups()
            self.set_up(number)
        elif number > 0:
            self.hold()
        self.look_back()
        if self.test or number % 12 == 0:
            self.empty_reads()
            self.watermarks()
        if number % 4 == 0:
            self.register_tour()
        self.steps(HELD_CALLS)
        self.release()
        if number % 4 == 0:
            self.register_tour()
        self.scenario(number)
        self.prepare()
        self.steps(ROUND_CALLS)
        if self.test:
            self.hold()
            self.look_back()
            self.steps(ROUND_CALLS // 2)
            if number % 2:
                # The next set-up then comes in a transfer.
                self.fresh()
                (self.burst if number % 4 == 1 else self.start_assignment)()

    def scenario(self, number):
        scenarios = [self.assignments, self.rings, self.syncs, self.all_endings,
                     self.long_transfer, self.device_tour]
        if self.test:
            self.rings()
            self.failed_round_the_end()
            scenarios = [self.assignments, self.syncs, self.all_endings, self.long_transfer]
        scenarios[number % len(scenarios)]()
        if self.test:
            self.bursts(number)
        if number % 6 == 0:
            self.no_call_tour()

    def all_endings(self):
        self.endings()
        self.failed_writes()

    def steps(self, calls):
        """Steps until that many calls are made."""
        goal = self.script.left - calls
        count = 0
        while self.script.left > goal:
            if count % MOOD_STEPS == 0:
                self.mood = self.source.below(len(MOOD_DRAINS))
            count += 1
            self.step()

    def step(self):
        if self.test and self.script.is_short() and self.source.one_in(8):
            self.lend()
        if self.guess.held:
            table = TEST_HELD_TABLE if self.test else HELD_TABLE
        elif self.guess.transfer:
            table = (TEST_OPEN_TABLES if self.test else OPEN_TABLES)[self.mood]
        else:
            table = (TEST_IDLE_TABLES if self.test else IDLE_TABLES)[self.mood]
        getattr(self, self.source.pick(table))()
