#!/usr/bin/env python3
"""Writes the register map as a CMSIS-SVD file (schema 1.3) to standard output.

    tools/svd.py > docs/registers.svd

All of it comes from docs/registers.toml, to which tests/documents/registers.py holds the
definitions. Exit status 0, or 1 with a message and no output, 2 for wrong arguments or output that
cannot be written.
"""

import pathlib
import sys
from collections.abc import Iterable, Iterator
from xml.sax.saxutils import escape

import inputs
import register_table
from register_table import WORD_BYTES, Field, Register, Table, Value

ACCESS = {'ro': 'read-only', 'wo': 'write-only', 'rw': 'read-write'}
DEVICE_TEXT = (
    "Host side of an open I3C controller. Reset values are those of the session program's bank, "
    'with queues of 4 words, watermarks of 1 (CMD, SDO) and 3 (the others) and ID 0; descriptions '
    'name those that depend on set-up. Reads of write-only registers give 0; bits that no field '
    'has are ignored on write and read 0, but for CMD_FIFO, which queues all 32.')
PERIPHERAL_TEXT = (
    'The controller. Offsets are 16 bits and accesses are whole words; a system adds its own base '
    'address. A reset by ENABLE leaves SCRATCH, IRQ_MASK, OPS, IBI_CONFIG, DEV_CHAR, the device '
    'table and both offload memories as they are.')
INTERRUPT_TEXT = (
    'Up while IRQ_PENDING is not 0. A system gives the line a number of its own, as it does with '
    'the base address.')


def element(depth: int, name: str, text: object) -> str:
    return '%s<%s>%s</%s>' % ('  ' * depth, name, escape(str(text)), name)


def inside(depth: int, name: str, lines: Iterable[str]) -> Iterator[str]:
    """An element that has others in it."""
    yield '%s<%s>' % ('  ' * depth, name)
    yield from lines
    yield '%s</%s>' % ('  ' * depth, name)


def value_lines(values: Iterable[Value]) -> Iterator[str]:
    for value in values:
        yield from inside(8, 'enumeratedValue', [
            element(9, 'name', value.name), element(9, 'description', value.meaning),
            element(9, 'value', value.number)])


def field_lines(field: Field, clears: bool, values: Iterable[Value]) -> Iterator[str]:
    yield element(7, 'name', field.page)
    yield element(7, 'description', field.text)
    yield element(7, 'bitRange', '[%d:%d]' % (field.high, field.low))
    yield element(7, 'access', ACCESS[field.access])
    if clears:
        yield element(7, 'modifiedWriteValues', 'oneToClear')
    if values:
        yield from inside(7, 'enumeratedValues', value_lines(values))


def register_lines(one: Register, table: Table) -> Iterator[str]:
    """A register; the elements in the schema's order."""
    if one.count:
        yield element(5, 'dim', one.count)
        yield element(5, 'dimIncrement', '0x%x' % WORD_BYTES)
    yield element(5, 'name', one.name + ('[%s]' if one.count else ''))
    yield element(5, 'description', (one.text + ' ' + one.more).strip())
    yield element(5, 'addressOffset', '0x%03x' % one.offset)
    yield element(5, 'size', 32)
    yield element(5, 'access', ACCESS[one.access])
    yield element(5, 'resetValue', '0x%08x' % one.first)
    yield element(5, 'resetMask', '0xffffffff')
    if one.row == 'takes':
        yield element(5, 'readAction', 'modify')
    yield from inside(5, 'fields', (
        line for field in one.shown
        for line in inside(6, 'field', field_lines(field, bool(field.mask & one.cleared),
                                                   table.values.get(field.values, ())))))


def peripheral_lines(table: Table) -> Iterator[str]:
    yield element(3, 'name', 'I3C')
    yield element(3, 'description', PERIPHERAL_TEXT)
    yield element(3, 'baseAddress', '0x00000000')
    yield from inside(3, 'addressBlock', [
        element(4, 'offset', '0x0'), element(4, 'size', '0x%x' % table.registers[-1].end),
        element(4, 'usage', 'registers')])
    yield from inside(3, 'interrupt', [
        element(4, 'name', 'I3C'), element(4, 'description', INTERRUPT_TEXT),
        element(4, 'value', 0)])
    yield from inside(3, 'registers', (
        line for one in table.registers
        for line in inside(4, 'register', register_lines(one, table))))


def svd_lines(table: Table) -> Iterator[str]:
    yield '<?xml version="1.0" encoding="utf-8"?>'
    yield '<!-- Written by tools/svd.py from docs/registers.toml. Do not edit. -->'
    yield '<device schemaVersion="1.3" xmlns:xs="http://www.w3.org/2001/XMLSchema-instance"' \
        ' xs:noNamespaceSchemaLocation="CMSIS-SVD.xsd">'
    yield element(1, 'name', 'Thymewax')
    yield element(1, 'version', '1.0')
    yield element(1, 'description', DEVICE_TEXT)
    yield element(1, 'addressUnitBits', 8)
    yield element(1, 'width', 32)
    yield from inside(1, 'peripherals', inside(2, 'peripheral', peripheral_lines(table)))
    yield '</device>'


def svd(table: Table) -> str:
    """The file for a table."""
    return ''.join(line + '\n' for line in svd_lines(table))


def work() -> int:
    parser = inputs.Parser(
        prog='svd', description='Writes the register map as a CMSIS-SVD file to standard output.')
    parser.add_argument('--table', type=pathlib.Path, default=register_table.TABLE, metavar='FILE',
                        help='what a register is (default: docs/registers.toml)')
    given = parser.parse_args()
    try:
        text = svd(register_table.load(given.table))
    except register_table.Wrong as error:
        inputs.say('svd', error)
        return 1
    sys.stdout.buffer.write(text.encode('utf-8'))
    return 0


if __name__ == '__main__':
    inputs.main('svd', work)
