"""A model: its memory, and the calls on it."""

from __future__ import annotations

import ctypes
import struct
import sys
import threading
from collections.abc import Sequence
from typing import NamedTuple

from . import image as layout
from . import library
from .calls import TRIGGER, Call
from .formats import fits
from .image import Image, Levels
from .numbers import Answer, Number, Refused
from .registers import Irq, Register

# Enough for the longest burst, of 15 commands.
OUTPUT_WORDS = 16


class SetUp(NamedTuple):
    """The numbers of a set-up: the queues' capacities and watermarks in words, and the ID. Those
    that are not given are 01's session's. CMD and SDI have 2 to 1,024 words, CMDR, SDO and IBI 1 to
    1,024; a watermark is at most its queue's capacity, the ID at most 255."""

    cmd: int = 4
    cmdr: int = 4
    sdo: int = 4
    sdi: int = 4
    ibi: int = 4
    cmd_mark: int = 1
    cmdr_mark: int = 3
    sdo_mark: int = 1
    sdi_mark: int = 3
    ibi_mark: int = 3
    id: int = 0


class Replayed(NamedTuple):
    """What a replay tells: its number, how many records it did, the answer of the last. True exactly
    where the number is 0: every record was right as a record; how the calls were answered is
    theirs."""

    number: int
    count: int
    last: Answer

    def __bool__(self) -> bool:
        return self.number == 0


class Place(NamedTuple):
    """Where a section lies in a trace, in bytes; 0 and 0 where asking for it is refused, and then it
    is not true."""

    number: int
    start: int
    length: int

    def __bool__(self) -> bool:
        return self.number == 0


def _word(number: int, name: str) -> int:
    return fits(number, 32, name)


def _memory(words: Sequence[int], name: str) -> ctypes.Array[ctypes.c_uint32]:
    return (library.Word * len(words))(*(_word(word, name) for word in words))


def _words(memory: ctypes.Array[ctypes.c_uint32]) -> tuple[int, ...]:
    """A copy of a memory, much faster than word by word."""
    return struct.unpack('=%dI' % len(memory), memory)


def _letter(letter: str | int) -> int:
    if not isinstance(letter, str):
        return _word(letter, 'letter')
    if len(letter) != 1:
        raise ValueError('letter is %r: not one character' % letter)
    return ord(letter)


class Model:
    """A controller: image and tables of its bank, the store of its queues, and the output that it
    lends to bursts. `Model.set_up(...)` makes a fresh one; `Model(image, store, output)` one that
    goes on where another was. Threads may share a model: its calls are made one at a time."""

    def __init__(self, image: Sequence[int], store: Sequence[int],
                 output: Sequence[int] = ()) -> None:
        """`image` is a row as `image()` gives it, words of any number and any values: a model of
        words that no bank has answers 21. A flag above 255, which no bank has, is kept as 255."""
        self._library = library.load()
        row = [_word(word, 'image') for word in image]
        tables = [*row[max(len(row) - layout.TABLES, 0):], *[0] * layout.TABLES][:layout.TABLES]
        self._image = _memory(row[:max(len(row) - layout.TABLES, 0)], 'image')
        self._flags = (ctypes.c_uint8 * layout.FLAGS)(
            *(min(flag, 255) for flag in tables[:layout.FLAGS]))
        self._commands = _memory(tables[layout.FLAGS:-layout.OFFLOAD_WORDS], 'image')
        self._payloads = _memory(tables[-layout.OFFLOAD_WORDS:], 'image')
        self._store = _memory(store, 'store')
        self._output = _memory(output, 'output')
        self._lock = threading.Lock()

    @classmethod
    def set_up(cls, *, output_words: int = OUTPUT_WORDS, **numbers: int) -> Model:
        """A fresh model, held in reset; `numbers` are those of SetUp. Refused with 23 where one is
        out of range."""
        chosen = SetUp(**numbers)
        given = [_word(number, name) for name, number in chosen._asdict().items()]
        words = _word(output_words, 'output_words')
        model = cls([0] * layout.WORDS, (), [0] * words)
        number = model._library.thymewax_set_up(*model._kept(), *given)
        if number:
            raise Refused(number)
        model._store = _memory([0] * sum(chosen[:5]), 'store')
        return model

    def _kept(self) -> tuple[object, ...]:
        """What every call takes first."""
        return self._image, len(self._image), self._flags, self._commands, self._payloads

    def step(self, letter: str | int, offset: int = 0, first: int = 0, second: int = 0) -> Answer:
        """A call by the numbers of a trace's record; the trigger has the letter G. Numbers that
        name no call are answered 27. ValueError for one of more than 32 bits."""
        numbers = (_letter(letter), _word(offset, 'offset'), _word(first, 'first value'),
                   _word(second, 'second value'))
        with self._lock:
            packed = self._library.thymewax_step(
                *self._kept(), self._store, len(self._store), self._output, len(self._output),
                *numbers)
        return Answer(packed & 0xffffffff, packed >> 32)

    def make(self, call: Call) -> Answer:
        """A call of a session's line or a trace's record."""
        return self.step(*call)

    def write(self, offset: int, value: int) -> Answer:
        """The host writes a register."""
        return self.step('W', offset, value)

    def read(self, offset: int) -> Answer:
        """The host reads a register. CMDR, SDI or IBI gives its first word; an empty one is answered
        3, with the word last read from it since the release, or 0."""
        return self.step('R', offset)

    def start(self) -> Answer:
        """The bus starts the next command; the value is its first word."""
        return self.step('S')

    def send(self) -> Answer:
        """A byte is sent to the device; it is the value."""
        return self.step('T')

    def receive(self, byte: int) -> Answer:
        """A byte is received from the device."""
        return self.step('X', 0, byte)

    def finish(self, code: int) -> Answer:
        """The bus finishes the transfer with an error code; the value is the receipt."""
        return self.step('F', 0, code)

    def interrupt(self, address: int, byte: int) -> Answer:
        """A device requests an interrupt; the value is the entry in IBI."""
        return self.step('I', 0, address, byte)

    def request(self, first: int, second: int) -> Answer:
        """A device requests an address with two words."""
        return self.step('D', 0, first, second)

    def take_address(self) -> Answer:
        """The bus takes the address word from SDO; the value is the address."""
        return self.step('A')

    def trigger(self) -> Answer:
        """Opens the burst of the offload commands."""
        return self.step(TRIGGER)

    def replay(self, trace: bytes, section: int = 0, limit: int = sys.maxsize) -> Replayed:
        """Makes the calls of a section of a trace, at most `limit` of them. The number is 0 or 24
        to 27; every call is lent an empty output. Where the words are those of no bank, each
        record is answered 21."""
        file, told = memoryview(trace).tobytes(), _memory([0] * 3, 'told')
        numbers = _word(section, 'section'), fits(limit, 64, 'limit')
        with self._lock:
            number = self._library.thymewax_replay(
                *self._kept(), self._store, len(self._store), file, len(file), *numbers, told,
                len(told))
        count, value, last = told
        return Replayed(number, count, Answer(value, last))

    def copy(self) -> Model:
        """A snapshot: a model of its own with these words. Calls on one leave the other as
        it is."""
        with self._lock:
            return type(self)(self._row(), self._store, self._output)

    def __copy__(self) -> Model:
        return self.copy()

    def __deepcopy__(self, memo: dict[int, object]) -> Model:
        return self.copy()

    def lend(self, words: int) -> None:
        """Lends another output, of so many words, to the calls from now on. All are 0."""
        output = _memory([0] * _word(words, 'words'), 'output')
        with self._lock:
            self._output = output

    def _row(self) -> tuple[int, ...]:
        return (*_words(self._image), *bytes(self._flags), *_words(self._commands),
                *_words(self._payloads))

    def image(self) -> Image:
        """Image and tables as they are now, in one row."""
        with self._lock:
            return Image(self._row())

    def store(self) -> tuple[int, ...]:
        """The store as it is now."""
        with self._lock:
            return _words(self._store)

    def output(self) -> tuple[int, ...]:
        """The output as it is now: one word for each read of a burst that was finished."""
        with self._lock:
            return _words(self._output)

    def levels(self) -> Levels:
        """The words in each queue."""
        return self.image().levels

    def source(self) -> Irq:
        """IRQ_SOURCE. Its read changes nothing."""
        return Irq(self.read(Register.IRQ_SOURCE).value)

    def shown(self) -> Irq:
        """IRQ_PENDING, source and mask: the interrupt line is up where one is set."""
        return Irq(self.read(Register.IRQ_PENDING).value)


def section(trace: bytes, number: int) -> Place:
    """Where a section of a trace lies, with the number of asking for it: 0, 24, 25 or 26."""
    file, place = memoryview(trace).tobytes(), _memory([0] * 2, 'place')
    asked = library.load().thymewax_section(file, len(file), _word(number, 'section'), place,
                                            len(place))
    return Place(asked, *place)


def sections(trace: bytes) -> list[Place]:
    """All sections of a trace. Refused with 24 or 25 where the trace is wrong."""
    found: list[Place] = []
    while True:
        place = section(trace, len(found))
        if place.number == Number.NO_SUCH_SECTION:
            return found
        if place.number:
            raise Refused(place.number)
        found.append(place)
