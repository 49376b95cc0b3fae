"""What stands at the end of an explained script: refused calls, commands without a receipt, the
first difference to a recording."""

from collections import defaultdict

import wording
from commands import Entry
from inputs import Made
from ledger import Ledger
from recorded import Recording
from thymewax import MEANINGS, Image, Register

# How many calls or commands of a kind are named.
NAMED = 8


def named(calls: list[int]) -> str:
    """The numbers of calls, the first of them where they are many."""
    return ', '.join(map(str, calls[:NAMED])) + (', ...' if len(calls) > NAMED else '')


class Summary:
    """Counts calls as they are made."""

    def __init__(self) -> None:
        self.calls = 0
        self.refused: dict[int, list[int]] = defaultdict(list)
        # Each refused call in words: the last of all, and those that wrote a word of a command.
        self.last_refused = ''
        self.lost: list[str] = []

    def follow(self, made: Made, asked: str, why: str) -> None:
        self.calls += 1
        if not made.answer.refused:
            return
        self.refused[made.answer.number].append(made.number)
        self.last_refused = 'call %d, %s: %s' % (made.number, asked, why)
        if made.call.letter == 'W' and made.call.offset == Register.CMD_FIFO:
            self.lost.append('call %d, %s' % (made.number, asked))

    def print_calls(self) -> None:
        refused = sum(map(len, self.refused.values()))
        print('%s, %d refused' % (wording.count(self.calls, 'call'), refused))
        for number, calls in sorted(self.refused.items()):
            print('  %d, %s: %s (%s)' % (number, MEANINGS[number],
                                         wording.count(len(calls), 'time'), named(calls)))
        print('words of commands dropped: %d' % len(self.lost))
        print_some(self.lost)


def print_some(lines: list[str]) -> None:
    for line in lines[:NAMED]:
        print('  ' + line)
    if len(lines) > NAMED:
        print('  and %d more' % (len(lines) - NAMED))


def command(entry: Entry, text: str) -> str:
    return 'call %d, %s: %s' % (entry.written, wording.command(entry.words), text)


def print_commands(ledger: Ledger, image: Image) -> None:
    """The commands that CMD took, and how far each is whose receipt was not read. The image is
    that after the last call."""
    print('commands taken: %d; started: %d; finished: %d; receipts read: %d' % (
        ledger.taken, ledger.started, ledger.finished, ledger.receipts_read))
    waiting = [command(entry, 'no receipt yet, queued' + (
        '' if entry.whole else ', its second word is missing')) for entry in ledger.waiting]
    if ledger.open:
        waiting.insert(0, command(ledger.open, 'no receipt yet, open since call %d (%s)' % (
            ledger.open.started, wording.open_transfer(image))))
    print_some([command(entry, 'its receipt waits in CMDR since call %d' % entry.finished)
                for entry in ledger.unread])
    print_some(waiting)
    print_some([command(entry, 'no receipt read, lost by the reset of call %d' % entry.lost)
                for entry in ledger.lost])


def print_difference(recording: Recording, suspect: str) -> None:
    """The first difference, and the last call that was refused before it."""
    if not recording.difference:
        print('recording: %d %s, no difference' % (recording.seen, recording.unit))
        return
    print('recording, first difference: %s' % recording.difference)
    if suspect:
        print('  refused last before it: %s' % suspect)
