"""The format of trace files (02 section 1): written, and read with the numbers of a refusal.

Nothing here needs the shared library.
"""

from __future__ import annotations

import struct
from collections.abc import Iterable, Iterator, Sequence

from .calls import Call
from .numbers import Number, Refused

MARK = b'I3TR'
MOST_SECTIONS = 64
MOST_BYTES = 16 << 20
# Letter, 0, offset, two values.
RECORD = struct.Struct('<cBHII')
# Start in the file, record count.
_ROW = struct.Struct('<II')
_BEFORE_TABLE = len(MARK) + 2


def record(call: Call) -> bytes:
    """The record of a call that is right."""
    return RECORD.pack(call.letter.encode(), 0, call.offset, call.first, call.second)


def records(calls: Iterable[Call]) -> bytes:
    """The records of calls, end to end."""
    return b''.join(map(record, calls))


def header_bytes(sections: int) -> int:
    """The length of mark, section count and table."""
    return _BEFORE_TABLE + _ROW.size * sections


def rows(counts: Iterable[int]) -> list[tuple[int, int]]:
    """The table: start and record count of each section."""
    counts = list(counts)
    start, found = header_bytes(len(counts)), []
    for count in counts:
        found.append((start, count))
        start += RECORD.size * count
    return found


def header(sections: int, table: Iterable[tuple[int, int]], order: str = '<') -> bytes:
    """Mark, section count and table, right or not."""
    numbers = [number for row in table for number in row]
    return MARK + struct.pack('%sH%dI' % (order, len(numbers)), sections, *numbers)


def join(data: bytes, lengths: Sequence[int] = ()) -> bytes:
    """The trace of records that lie end to end: sections of these lengths, then one of the rest."""
    total = len(data) // RECORD.size
    counts = [*lengths, total - sum(lengths)]
    size = header_bytes(len(counts)) + len(data)
    if counts[-1] < 0:
        raise ValueError('sections of %d records, but %d calls' % (sum(lengths), total))
    if len(counts) > MOST_SECTIONS:
        raise ValueError('%d sections, at most %d fit' % (len(counts), MOST_SECTIONS))
    if size > MOST_BYTES:
        raise ValueError('%d bytes, at most %d fit' % (size, MOST_BYTES))
    return header(len(counts), rows(counts)) + data


def is_trace(data: bytes) -> bool:
    """Whether data open with the mark."""
    return data.startswith(MARK)


def sections(trace: bytes) -> list[memoryview]:
    """The records of each section, uncopied. Refused with 24 or 25 where the trace is wrong."""
    if not is_trace(trace):
        raise Refused(Number.WRONG_MARK)
    if len(trace) < _BEFORE_TABLE or len(trace) > MOST_BYTES:
        raise Refused(Number.WRONG_TABLE)
    count = int.from_bytes(trace[len(MARK):_BEFORE_TABLE], 'little')
    if not 1 <= count <= MOST_SECTIONS or len(trace) < header_bytes(count):
        raise Refused(Number.WRONG_TABLE)
    table = list(_ROW.iter_unpack(trace[_BEFORE_TABLE:header_bytes(count)]))
    end = table[-1][0] + RECORD.size * table[-1][1]
    if table != rows(length for _, length in table) or end != len(trace):
        raise Refused(Number.WRONG_TABLE)
    whole = memoryview(trace)
    return [whole[start:start + RECORD.size * length] for start, length in table]


def calls(section: bytes | memoryview) -> Iterator[Call]:
    """The calls of a section's records. Refused with 27 at the first wrong one."""
    for letter, zero, *numbers in RECORD.iter_unpack(section):
        call = Call(letter.decode('latin-1'), *numbers)
        if zero or not call.right:
            raise Refused(Number.WRONG_RECORD)
        yield call
