"""Thymewax for Python: the host side of an I3C controller as a model.

    from thymewax import Model, Register

    model = Model.set_up(cmd=8)
    model.write(Register.ENABLE, 0)
    room = model.read(Register.CMD_FIFO_ROOM).value

The shared library is opened with the first model; `python3 -m thymewax.build` makes it.
"""

from .calls import Call
from .formats import AddressWord, Ccc, Command, Device, Interrupt, Ops, Receipt
from .image import Image, Kind, Latest, Levels, Phase, Ring, Rings, Transfer
from .library import LibraryMissing
from .model import Model, Place, Replayed, SetUp, section, sections
from .numbers import MEANINGS, Answer, Number, Refused
from .registers import (OFFLOAD_CMD, OFFLOAD_SDO, Code, Config, Irq, Register, Speed, Status,
                        name_of)

__all__ = [
    'AddressWord', 'Answer', 'Call', 'Ccc', 'Code', 'Command', 'Config', 'Device', 'Image',
    'Interrupt', 'Irq', 'Kind', 'Latest', 'Levels', 'LibraryMissing', 'MEANINGS', 'Model',
    'Number', 'OFFLOAD_CMD', 'OFFLOAD_SDO', 'Ops', 'Phase', 'Place', 'Receipt', 'Refused',
    'Register', 'Replayed', 'Ring', 'Rings', 'SetUp', 'Speed', 'Status', 'Transfer', 'name_of',
    'section', 'sections',
]
