"""Words with fields: commands, receipts, interrupt entries, OPS, DEV_CHAR, address words.

`word` raises ValueError for a field that has more bits than its place.
"""

from __future__ import annotations

import operator
from collections.abc import Mapping
from typing import Any, NamedTuple

ENTDAA = 0x07
# The lowest bit and the bits of each field that a word is made of.
_COMMAND = {'read': (0, 1), 'address': (1, 7), 'length': (8, 12), 'repeated_start': (20, 1),
            'header': (21, 1), 'ccc': (22, 1)}
_OPS = {'offload': (0, 1), 'offload_length': (1, 4), 'speed': (5, 2)}
_DEVICE = {'attached': (1, 1), 'may_interrupt': (2, 1), 'sends_byte': (3, 1), 'store': (8, 1),
           'address': (9, 7)}
_ADDRESS_WORD = {'address': (25, 7), 'parity': (24, 1)}


def fits(number: int, bits: int, name: str) -> int:
    """The number, where it has so many bits: one that has more would be cut."""
    number = operator.index(number)
    if not 0 <= number < 1 << bits:
        raise ValueError('%s is %d: not a number of %d bits' % (name, number, bits))
    return number


def _word(fields: Any, places: Mapping[str, tuple[int, int]]) -> int:
    word = 0
    for name, (low, bits) in places.items():
        word |= fits(getattr(fields, name), bits, name) << low
    return word


class Command(NamedTuple):
    """The first word of a command, as CMD_FIFO and the offload commands take it."""

    address: int = 0
    length: int = 0
    read: bool = False
    ccc: bool = False
    header: bool = False
    repeated_start: bool = False

    @classmethod
    def of(cls, word: int) -> Command:
        return cls(word >> 1 & 0x7f, word >> 8 & 0xfff, bool(word & 1), bool(word >> 22 & 1),
                   bool(word >> 21 & 1), bool(word >> 20 & 1))

    @property
    def word(self) -> int:
        return _word(self, _COMMAND)


class Ccc(NamedTuple):
    """The second word of a CCC. Bit 7 of the code says that it is direct."""

    code: int

    @classmethod
    def of(cls, word: int) -> Ccc:
        return cls(word & 0xff)

    @property
    def direct(self) -> bool:
        return self.code >= 0x80


class Receipt(NamedTuple):
    """A word of CMDR_FIFO, and the value of a finish."""

    error: int
    length: int
    sync: int

    @classmethod
    def of(cls, word: int) -> Receipt:
        return cls(word >> 20 & 0xf, word >> 8 & 0xfff, word & 0xff)


class Interrupt(NamedTuple):
    """A word of IBI_FIFO, and the value of an interrupt request."""

    address: int
    data: int
    sync: int

    @classmethod
    def of(cls, word: int) -> Interrupt:
        return cls(word >> 17 & 0x7f, word >> 8 & 0xff, word & 0xff)


class Ops(NamedTuple):
    """OPS. `idle` is read-only."""

    offload: bool = False
    offload_length: int = 0
    speed: int = 0
    idle: bool = False

    @classmethod
    def of(cls, word: int) -> Ops:
        return cls(bool(word & 1), word >> 1 & 0xf, word >> 5 & 3, bool(word >> 7 & 1))

    @property
    def word(self) -> int:
        return _word(self, _OPS)


class Device(NamedTuple):
    """DEV_CHAR. Only with `store` does a write change the device's flags."""

    address: int
    attached: bool = False
    may_interrupt: bool = False
    sends_byte: bool = False
    store: bool = True

    @classmethod
    def of(cls, word: int) -> Device:
        return cls(word >> 9 & 0x7f, bool(word >> 1 & 1), bool(word >> 2 & 1),
                   bool(word >> 3 & 1), bool(word >> 8 & 1))

    @property
    def word(self) -> int:
        return _word(self, _DEVICE)


class AddressWord(NamedTuple):
    """A word of SDO_FIFO that an address take takes. The parity bit makes the ones of address and
    parity together an odd number."""

    address: int
    parity_right: bool = True

    @classmethod
    def of(cls, word: int) -> AddressWord:
        return cls(word >> 25, (word >> 24).bit_count() % 2 == 1)

    @property
    def parity(self) -> bool:
        return (self.address.bit_count() % 2 == 0) == self.parity_right

    @property
    def word(self) -> int:
        return _word(self, _ADDRESS_WORD)
