"""What is kept of a bank by names: the words of the image, then the tables, a word a flag.

For tools that look. What is read here is the model's own; nothing is worked out again.
"""

from __future__ import annotations

import operator
from collections.abc import Sequence
from enum import IntEnum
from typing import NamedTuple

from .formats import Device
from .registers import Irq

# Words of the image that the archive takes; flags, commands and payloads follow.
IMAGE_WORDS = 43
FLAGS = 128
OFFLOAD_WORDS = 16
TABLES = FLAGS + 2 * OFFLOAD_WORDS
WORDS = IMAGE_WORDS + TABLES
_RING_WORDS = 4
_PENDING = (Irq.CMDR_PENDING, Irq.IBI_PENDING, Irq.DAA_PENDING)


class ImageWord(IntEnum):
    """Where a word lies in an image, by the names of its definition. The first four are those of
    the first queue; the other queues follow, four words each."""

    CAPS = 0
    MARKS = 1
    HEADS = 2
    LEVELS = 3
    ID = 20
    SCRATCH = 21
    MASK = 22
    OPS = 23
    CONFIG = 24
    SELECTED = 25
    HELD = 26
    SYNC = 27
    IBISYNC = 28
    CMDRPENDING = 29
    IBIPENDING = 30
    DAAPENDING = 31
    BURST = 32
    CMDRLATEST = 33
    SDILATEST = 34
    IBILATEST = 35
    STAGE = 36
    KIND = 37
    HEADER = 38
    LENGTH = 39
    MOVED = 40
    ATTACHED = 41
    PART = 42


# Watermarks, levels, the mask, whether it is held, pending bits, the burst, the transfer but its
# part word.
_MOVING = operator.itemgetter(*range(ImageWord.MARKS, ImageWord.ID, _RING_WORDS),
                              *range(ImageWord.LEVELS, ImageWord.ID, _RING_WORDS),
                              ImageWord.MASK, ImageWord.HELD,
                              *range(ImageWord.CMDRPENDING, ImageWord.CMDRLATEST),
                              *range(ImageWord.STAGE, ImageWord.PART))


class Phase(IntEnum):
    """How far the open transfer is."""

    IDLE = 0
    WRITING = 1
    READING = 2
    ASSIGNING = 3
    ASSIGNING_REQUEST_OPEN = 4
    ASSIGNING_SOME_ANSWERED = 5


class Kind(IntEnum):
    """What kind of command the open transfer has."""

    PRIVATE = 0
    DIRECT_CCC = 1
    BROADCAST_CCC = 2


class Ring(NamedTuple):
    """A queue: its size, its watermark, the place of its first word, and how many it has."""

    capacity: int
    watermark: int
    head: int
    level: int


class Rings(NamedTuple):
    cmd: Ring
    cmdr: Ring
    sdo: Ring
    sdi: Ring
    ibi: Ring


class Levels(NamedTuple):
    """Words in each queue."""

    cmd: int
    cmdr: int
    sdo: int
    sdi: int
    ibi: int


class Latest(NamedTuple):
    """The words last read from the queues that the driver reads, since the release; 0 where none
    was. An empty queue shows its own."""

    cmdr: int
    sdi: int
    ibi: int


class Transfer(NamedTuple):
    """The open transfer; all 0 where the phase is IDLE. Lengths are in bytes."""

    phase: Phase
    kind: Kind
    header: bool
    length: int
    moved: int
    attached: bool
    part_word: int


class Image(tuple[int, ...]):
    """The words of image and tables at one moment."""

    __slots__ = ()

    @property
    def rings(self) -> Rings:
        return Rings(*(Ring(*self[at:at + _RING_WORDS])
                       for at in range(0, _RING_WORDS * len(Rings._fields), _RING_WORDS)))

    @property
    def levels(self) -> Levels:
        return Levels(*self[ImageWord.LEVELS:_RING_WORDS * len(Rings._fields):_RING_WORDS])

    @property
    def moving(self) -> tuple[int, ...]:
        """The words of watermarks, levels, mask, reset, pending bits, burst and transfer: images of
        one bank that agree in them show the same of all these, and of IRQ_SOURCE."""
        words: tuple[int, ...] = _MOVING(self)
        return words

    @property
    def device_id(self) -> int:
        return self[ImageWord.ID]

    @property
    def scratch(self) -> int:
        return self[ImageWord.SCRATCH]

    @property
    def irq_mask(self) -> Irq:
        return Irq(self[ImageWord.MASK])

    @property
    def ops(self) -> int:
        """Bits 6:0 of OPS."""
        return self[ImageWord.OPS]

    @property
    def ibi_config(self) -> int:
        return self[ImageWord.CONFIG]

    @property
    def selected(self) -> int:
        """The device address that DEV_CHAR selects."""
        return self[ImageWord.SELECTED]

    @property
    def held(self) -> bool:
        """Whether the bank is held in reset."""
        return bool(self[ImageWord.HELD])

    @property
    def receipt_sync(self) -> int:
        return self[ImageWord.SYNC]

    @property
    def interrupt_sync(self) -> int:
        return self[ImageWord.IBISYNC]

    @property
    def pending(self) -> Irq:
        """Those of the pending bits 5 to 7 that are set."""
        bits = Irq(0)
        for bit, word in zip(_PENDING, self[ImageWord.CMDRPENDING:ImageWord.BURST]):
            bits |= bit if word else Irq(0)
        return bits

    @property
    def burst_place(self) -> int | None:
        """The place of the open burst's command at hand; None where no burst is open."""
        place = self[ImageWord.BURST]
        return place - 1 if place else None

    @property
    def latest(self) -> Latest:
        return Latest(*self[ImageWord.CMDRLATEST:ImageWord.STAGE])

    @property
    def transfer(self) -> Transfer:
        phase, kind, header, length, moved, attached, part = self[ImageWord.STAGE:IMAGE_WORDS]
        return Transfer(Phase(phase), Kind(kind), bool(header), length, moved, bool(attached), part)

    @property
    def device_flags(self) -> tuple[int, ...]:
        """The stored flags of the 128 devices."""
        return self[IMAGE_WORDS:IMAGE_WORDS + FLAGS]

    def device(self, address: int) -> Device:
        """A device with its stored flags."""
        return Device.of(address << 9 | self.device_flags[address] << 1)

    @property
    def offload_commands(self) -> tuple[int, ...]:
        return self[WORDS - 2 * OFFLOAD_WORDS:WORDS - OFFLOAD_WORDS]

    @property
    def offload_data(self) -> tuple[int, ...]:
        return self[WORDS - OFFLOAD_WORDS:]

    def queue(self, name: str, store: Sequence[int]) -> tuple[int, ...]:
        """The words of a queue (`cmd`, `cmdr`, `sdo`, `sdi`, `ibi`) in order, out of the store."""
        place = Rings._fields.index(name)
        base = sum(ring.capacity for ring in self.rings[:place])
        ring = self.rings[place]
        return tuple(store[base + (ring.head + entry) % ring.capacity]
                     for entry in range(ring.level))
