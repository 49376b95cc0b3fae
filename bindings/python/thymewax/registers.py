"""The register map: offsets by the names of docs/registers.svd, and the bits of some registers.

The members are numbers: `model.read(Register.CMD_FIFO_ROOM)`, `model.write(OFFLOAD_CMD[3], word)`.
"""

from __future__ import annotations

from enum import IntEnum, IntFlag

# Written by tools/names.py from docs/registers.toml: do not edit.


class Register(IntEnum):
    """Offsets."""

    VERSION = 0x000
    DEVICE_ID = 0x004
    SCRATCH = 0x008
    ENABLE = 0x040
    IRQ_MASK = 0x080
    IRQ_PENDING = 0x084
    IRQ_SOURCE = 0x088
    CMD_FIFO_ROOM = 0x0c0
    CMDR_FIFO_LEVEL = 0x0c4
    SDO_FIFO_ROOM = 0x0c8
    SDI_FIFO_LEVEL = 0x0cc
    IBI_FIFO_LEVEL = 0x0d0
    CMD_FIFO = 0x0d4
    CMDR_FIFO = 0x0d8
    SDO_FIFO = 0x0dc
    SDI_FIFO = 0x0e0
    IBI_FIFO = 0x0e4
    FIFO_STATUS = 0x0e8
    OPS = 0x100
    IBI_CONFIG = 0x140
    DEV_CHAR = 0x180
    CMD_WATERMARK = 0x200
    CMDR_WATERMARK = 0x204
    SDO_WATERMARK = 0x208
    SDI_WATERMARK = 0x20c
    IBI_WATERMARK = 0x210


# The offsets of memories.
OFFLOAD_CMD = range(0x2c0, 0x300, 4)
OFFLOAD_SDO = range(0x300, 0x340, 4)
MEMORIES = {'OFFLOAD_CMD': OFFLOAD_CMD, 'OFFLOAD_SDO': OFFLOAD_SDO}


class Irq(IntFlag):
    """IRQ_MASK, IRQ_PENDING, IRQ_SOURCE."""

    CMD_ALMOST_EMPTY = 1 << 0
    CMDR_ALMOST_FULL = 1 << 1
    SDO_ALMOST_EMPTY = 1 << 2
    SDI_ALMOST_FULL = 1 << 3
    IBI_ALMOST_FULL = 1 << 4
    CMDR_PENDING = 1 << 5
    IBI_PENDING = 1 << 6
    DAA_PENDING = 1 << 7


class Status(IntFlag):
    """FIFO_STATUS."""

    CMDR_EMPTY = 1 << 0
    IBI_EMPTY = 1 << 1
    SDI_EMPTY = 1 << 2


class Config(IntFlag):
    """IBI_CONFIG."""

    IBI_CONFIG_ENABLE = 1 << 0
    IBI_CONFIG_LISTEN = 1 << 1


class Code(IntEnum):
    """Numbers of `Receipt.error`."""

    NO_ERROR = 0
    CE0 = 1
    CE2 = 4
    NACK = 6
    UNKNOWN_ADDRESS = 8


class Speed(IntEnum):
    """Numbers of `Ops.speed`."""

    MHZ_1_56 = 0
    MHZ_3_12 = 1
    MHZ_6_25 = 2
    MHZ_12_50 = 3


# End of what is written.

_NAMES: dict[int, str] = {
    **{int(register): register.name for register in Register},
    **{offset: '%s[%d]' % (name, place)
       for name, offsets in MEMORIES.items() for place, offset in enumerate(offsets)},
}


def name_of(offset: int) -> str | None:
    """The name of the register at an offset, if one is there."""
    return _NAMES.get(offset)
