#!/usr/bin/env python3
"""A driver and a sensor: a write and a read, with no command lost, and their receipts.

    python3 bindings/python/examples/write_and_read.py

Needs the shared library: `python3 -m thymewax.build`.
"""

import pathlib
import sys

# Not needed where the package is installed.
sys.path.insert(0, str(pathlib.Path(__file__).resolve().parent.parent))

from thymewax import Command, Device, Model, Number, Receipt, Register

SENSOR = 0x08
READINGS = bytes([0x12, 0x34, 0x56])


def queue(model, command):
    """Writes a command where there is room: a word that finds none is dropped without a sign."""
    if model.read(Register.CMD_FIFO_ROOM).value == 0:
        raise RuntimeError('no room for a command')
    answer = model.write(Register.CMD_FIFO, command.word)
    print('command %08x: %s' % (command.word, answer.meaning))


def receipt(model):
    """Reads a receipt. Without one, `done` raises."""
    got = Receipt.of(model.read(Register.CMDR_FIFO).done().value)
    print('receipt: error %d, %d bytes, sync %d' % got)
    return got


def main():
    model = Model.set_up(cmd=2, sdi=8)
    model.write(Register.ENABLE, 0).done()
    model.write(Register.DEV_CHAR, Device(SENSOR, attached=True).word).done()

    # The driver queues a write of two bytes and a read.
    model.write(Register.SDO_FIFO, 0xa5c30000).done()
    queue(model, Command(SENSOR, length=2))
    queue(model, Command(SENSOR, length=4, read=True))
    # A third command without a look at the room: only the number says that it is lost.
    lost = model.write(Register.CMD_FIFO, Command(SENSOR, length=1).word)
    if lost.number == Number.DROPPED_FULL:
        print('a third one: %d, %s' % (lost.number, lost.meaning))

    # The bus runs the write, then the read, which the sensor ends after three bytes.
    model.start()
    print('sent: %02x %02x' % (model.send().value, model.send().value))
    model.finish(0)
    receipt(model)
    model.start()
    for byte in READINGS:
        model.receive(byte)
    model.finish(0)
    got = receipt(model)
    word = model.read(Register.SDI_FIFO).value
    print('received: %s' % word.to_bytes(4, 'big')[:got.length].hex(' '))


if __name__ == '__main__':
    main()
