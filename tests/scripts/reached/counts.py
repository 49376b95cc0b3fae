"""What is counted over all scripts: each call of a script is paired with its answer."""

from collections import Counter

from tests.scripts.lines import SET_UP, SHOW, call_pattern, lent, script_lines, split
from tests.scripts.reached import no_calls
from tests.scripts.reached.accesses import Accesses
from tests.scripts.reached.events import Events
from tests.scripts.reached.possible import EVENTS
from tests.scripts.reached.set_ups import SetUps
from thymewax import Number


ACCESSES = 'WR'


class Follower(Accesses, Events, SetUps):
    """Follows the calls of one script by their answers and counts."""

    def follow(self, letter, fields, value, number):
        self.look_at_sources(letter, fields)
        if letter == SET_UP:
            self.set_up(fields, number)
        elif letter == SHOW:
            self.show(*fields)
        elif self.refused:
            if letter in ACCESSES:
                self.note_refused(letter, fields[0], number)
        else:
            if letter in EVENTS and self.is_short(self.lent):
                self.note_short(letter, fields, number)
            if not (self.in_burst() and number == Number.NO_ROOM):
                getattr(self, 'call_' + letter)(*fields, value, number)


class Counts:
    """All that is counted."""

    def __init__(self):
        self.calls = 0
        self.scripts = 0
        self.pairs = Counter()
        self.accesses = Counter()
        self.endings = Counter()
        self.burst_endings = Counter()
        self.situations = Counter()
        self.addresses = Counter()
        self.no_calls = Counter()
        self.ends = Counter()

    def add(self, data, answers, test):
        """Counts one script; says whether as many answers came as it has calls."""
        pattern, kinds = call_pattern(test), no_calls.kinds(test)
        follower = Follower(self)
        matches, position = pattern.fullmatch, 0
        for line in script_lines(data):
            if not matches(line):
                words = lent(line) if test else None
                if words is None:
                    self.no_calls[no_calls.kind_of(line, kinds)] += 1
                else:
                    follower.lend(words)
                continue
            if position == len(answers):
                return False
            value, number = int(answers[position][:8], 16), int(answers[position][9:])
            position += 1
            letter, fields = split(line)
            self.pairs[letter, number] += 1
            follower.follow(letter, fields, value, number)
        self.calls += position
        self.scripts += 1
        self.ends[no_calls.end_of(data, pattern)] += 1
        return position == len(answers)
