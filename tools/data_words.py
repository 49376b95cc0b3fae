"""Where each word went that was written to SDO, and where each came from that the bus put into SDI
(02 §13). The bytes of a burst are of no such word."""

from collections import deque
from dataclasses import dataclass, field
from typing import NamedTuple

from commands import Entry

# The codes with which a write takes its payload out of SDO (`finish.removal`).
UNSENT = (4, 6, 8)
WORD_BYTES = 4


# ── What became of a word ───────────────────────────────────────────────────────────────────────

class Waiting(NamedTuple):
    """It is in its queue."""


class Dropped(NamedTuple):
    """SDO did not take it; with the number that says why."""

    number: int


@dataclass
class Sent:
    """It was taken for a write. Its first byte has this place in the payload, from 1; the calls
    sent a byte of it each."""

    entry: Entry
    place: int
    calls: list[int] = field(default_factory=list)

    @property
    def whole(self) -> bool:
        return len(self.calls) == WORD_BYTES


class Removed(NamedTuple):
    """The finish of a failed write took it out."""

    entry: Entry
    call: int


class Address(NamedTuple):
    """It was taken in an assignment, with a wrong parity bit perhaps."""

    entry: Entry
    call: int
    wrong: bool


class Read(NamedTuple):
    """The driver read it."""

    call: int


class Lost(NamedTuple):
    """A reset emptied its queue."""

    call: int


WAITING = Waiting()
SdoFate = Waiting | Dropped | Sent | Removed | Address | Lost
SdiFate = Waiting | Read | Lost
Fate = SdoFate | SdiFate


# ── Words ───────────────────────────────────────────────────────────────────────────────────────

@dataclass
class SdoWord:
    """A word, the call that wrote it, and where it went."""

    word: int
    written: int
    fate: SdoFate = WAITING


class Payload(NamedTuple):
    """Bytes that a read received, the first at this place from 1; padded, if fewer than four."""

    entry: Entry
    place: int
    count: int


class Request(NamedTuple):
    """The first or the second word of an address request."""

    call: int
    second: bool


@dataclass
class SdiWord:
    """A word, the call that put it into SDI, where it came from, and what became of it."""

    word: int
    put: int
    source: Payload | Request
    fate: SdiFate = WAITING


# ── Queues ──────────────────────────────────────────────────────────────────────────────────────

@dataclass
class Sdo:
    """All words that were written, those that wait, and those taken for the open write; `last` has
    the bytes sent of the last of these."""

    words: list[SdoWord] = field(default_factory=list)
    waiting: deque[SdoWord] = field(default_factory=deque)
    taken: list[SdoWord] = field(default_factory=list)
    last: Sent | None = None

    def write(self, word: int, call: int) -> None:
        self.words.append(SdoWord(word, call))
        self.waiting.append(self.words[-1])

    def drop(self, word: int, call: int, number: int) -> None:
        self.words.append(SdoWord(word, call, Dropped(number)))

    def send(self, entry: Entry, call: int) -> list[SdoWord]:
        """A byte is sent; gives the word that left SDO with it."""
        left = []
        if self.last is None or self.last.whole:
            left = [self.waiting.popleft()]
            self.last = left[0].fate = Sent(entry, WORD_BYTES * len(self.taken) + 1)
            self.taken += left
        self.last.calls.append(call)
        return left

    def take_address(self, entry: Entry, call: int, wrong: bool) -> list[SdoWord]:
        """Gives the word that left SDO."""
        word = self.waiting.popleft()
        word.fate = Address(entry, call, wrong)
        return [word]

    def finish(self, entry: Entry, call: int, code: int) -> list[SdoWord]:
        """Gives the words that were sent for a command, or removed."""
        gone = self._close()
        if code in UNSENT:
            for _ in range(min(entry.payload, len(self.waiting))):
                gone.append(self.waiting.popleft())
                gone[-1].fate = Removed(entry, call)
        return gone

    def reset(self, call: int) -> None:
        self._close()
        lose(self.waiting, call)

    def _close(self) -> list[SdoWord]:
        """The bytes left of the last word go nowhere."""
        taken, self.taken, self.last = self.taken, [], None
        return taken


@dataclass
class Sdi:
    """All words that came, those that wait, and the bytes that the open read received."""

    words: list[SdiWord] = field(default_factory=list)
    waiting: deque[SdiWord] = field(default_factory=deque)
    received: bytearray = field(default_factory=bytearray)

    def receive(self, entry: Entry, byte: int, call: int) -> list[SdiWord]:
        """Gives the word that the byte fills."""
        self.received.append(byte)
        return self._put_bytes(entry, call, 0 if len(self.received) % WORD_BYTES else WORD_BYTES)

    def finish(self, entry: Entry, call: int) -> list[SdiWord]:
        """Gives the word of the bytes that filled none."""
        put = self._put_bytes(entry, call, len(self.received) % WORD_BYTES)
        self.received.clear()
        return put

    def request(self, first: int, second: int, call: int) -> None:
        self._put(SdiWord(first, call, Request(call, False)))
        self._put(SdiWord(second, call, Request(call, True)))

    def read(self, call: int) -> list[SdiWord]:
        word = self.waiting.popleft()
        word.fate = Read(call)
        return [word]

    def reset(self, call: int) -> None:
        self.received.clear()
        lose(self.waiting, call)

    def _put_bytes(self, entry: Entry, call: int, count: int) -> list[SdiWord]:
        """The last bytes received, if there are any to put, with zeros behind them."""
        if not count:
            return []
        place = len(self.received) - count
        word = int.from_bytes(self.received[place:].ljust(WORD_BYTES, b'\0'), 'big')
        return [self._put(SdiWord(word, call, Payload(entry, place + 1, count)))]

    def _put(self, word: SdiWord) -> SdiWord:
        self.words.append(word)
        self.waiting.append(word)
        return word


def lose(waiting: deque[SdoWord] | deque[SdiWord], call: int) -> None:
    for word in waiting:
        word.fate = Lost(call)
    waiting.clear()
