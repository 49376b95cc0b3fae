"""Which commands were taken, started and finished, which receipts were read, which data words each
call moved, and which calls read the words that empty queues show.

Calls and answers are all that it knows, as in the rules `demand.started` to `demand.receipts`.
"""

from collections import deque
from collections.abc import Sequence
from dataclasses import dataclass, field
from typing import NamedTuple

from commands import Entry
from data_words import Sdi, SdiWord, Sdo, SdoWord
from inputs import Made
from thymewax import Number, Register


class About(NamedTuple):
    """What a call was about: a command that it names, and the data words that it moved. A finish
    has those of SDO that were sent for its command, or that it removed."""

    entry: Entry | None = None
    sdo: Sequence[SdoWord] = ()
    sdi: Sequence[SdiWord] = ()


NOTHING = About()


@dataclass
class Ledger:
    """The commands by how far they are; `lost` are those that a reset left without a receipt read.
    `last_reads` has, by a queue's offset, the call that read its last word since the reset
    (`take.empty`)."""

    waiting: deque[Entry] = field(default_factory=deque)
    open: Entry | None = None
    unread: deque[Entry] = field(default_factory=deque)
    lost: list[Entry] = field(default_factory=list)
    sdo: Sdo = field(default_factory=Sdo)
    sdi: Sdi = field(default_factory=Sdi)
    last_reads: dict[int, int] = field(default_factory=dict)
    taken: int = 0
    started: int = 0
    finished: int = 0
    receipts_read: int = 0

    @property
    def awaits_second(self) -> bool:
        """Whether the next word of CMD is the second of a CCC."""
        return bool(self.waiting) and not self.waiting[-1].whole

    def follow(self, made: Made) -> About:
        """Counts a call."""
        if made.answer.refused:
            return self._refused(made)
        event = {
            'T': self._send, 'X': self._receive, 'F': self._finish, 'D': self._request,
            'A': self._take_address,
        }.get(made.call.letter)
        if event:
            # A transfer of a burst is no command of CMD, so that none is open.
            return event(made, self.open) if self.open else NOTHING
        about = {
            ('W', Register.CMD_FIFO): self._take,
            ('W', Register.SDO_FIFO): self._write_data,
            ('W', Register.ENABLE): self._enable,
            ('R', Register.CMDR_FIFO): self._read_receipt,
            ('R', Register.SDI_FIFO): self._read_data,
            ('R', Register.IBI_FIFO): self._read,
            ('S', 0): self._start,
        }.get((made.call.letter, made.call.offset))
        return about(made) if about else NOTHING

    def _refused(self, made: Made) -> About:
        if made.call.letter == 'W' and made.call.offset == Register.SDO_FIFO:
            self.sdo.drop(made.call.first, made.number, made.answer.number)
        return NOTHING

    def _take(self, made: Made) -> About:
        if self.awaits_second:
            self.waiting[-1].words.append(made.call.first)
        else:
            self.waiting.append(Entry([made.call.first], made.number))
        # The first word of a CCC alone is no command yet.
        self.taken += self.waiting[-1].whole
        return About(self.waiting[-1])

    def _write_data(self, made: Made) -> About:
        self.sdo.write(made.call.first, made.number)
        return NOTHING

    def _start(self, made: Made) -> About:
        self.open = self.waiting.popleft()
        self.open.started = made.number
        self.started += 1
        return About(self.open)

    def _send(self, made: Made, entry: Entry) -> About:
        return About(sdo=self.sdo.send(entry, made.number))

    def _receive(self, made: Made, entry: Entry) -> About:
        return About(sdi=self.sdi.receive(entry, made.call.first, made.number))

    def _finish(self, made: Made, entry: Entry) -> About:
        self.open = None
        entry.finished = made.number
        self.unread.append(entry)
        self.finished += 1
        return About(entry, self.sdo.finish(entry, made.number, made.call.first),
                     self.sdi.finish(entry, made.number))

    def _request(self, made: Made, entry: Entry) -> About:
        self.sdi.request(made.call.first, made.call.second, made.number)
        return NOTHING

    def _take_address(self, made: Made, entry: Entry) -> About:
        wrong = made.answer.number == Number.WRONG_PARITY
        return About(sdo=self.sdo.take_address(entry, made.number, wrong))

    def _read(self, made: Made) -> About:
        self.last_reads[made.call.offset] = made.number
        return NOTHING

    def _read_receipt(self, made: Made) -> About:
        self._read(made)
        self.receipts_read += 1
        return About(self.unread.popleft())

    def _read_data(self, made: Made) -> About:
        self._read(made)
        return About(sdi=self.sdi.read(made.number))

    def _enable(self, made: Made) -> About:
        if made.call.first & 1:
            self._reset(made.number)
        return NOTHING

    def _reset(self, call: int) -> None:
        for entry in [*self.unread, *([self.open] if self.open else []), *self.waiting]:
            entry.lost = call
            self.lost.append(entry)
        self.unread.clear()
        self.waiting.clear()
        self.open = None
        self.sdo.reset(call)
        self.sdi.reset(call)
        self.last_reads.clear()
