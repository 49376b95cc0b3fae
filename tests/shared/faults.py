"""Traces with faults, by kind.

Each function of KINDS gives pairs of a name and a trace. Some of the traces are right: which number
a trace ends with, `expected` of replayed.py says. docs/GENERATOR.md gives the rule.
"""

from itertools import permutations, product

from tests.scripts.source import Source
from tests.shared.packing import any_lengths, pack, record, records
from tests.shared.trial import generated
from thymewax.trace import MOST_BYTES, RECORD, header, header_bytes, join, rows

# Every letter, with an answer 0.
SCRIPT = b"""W 40 0
W 140 3
W 180 110e
I 8 5a
R e4
W dc a5c30000
W d4 210
S
T
T
F 0
W d4 111
S
X ff
F 0
W d4 400000
W d4 7
S
D 1234567 89abcdef
W dc 10000000
A
F 0
R d8
"""
DATA = records(SCRIPT)
CALLS = len(DATA) // RECORD.size
COUNTS = [7, 0, 9, 7]
TRACE = join(DATA, COUNTS[:-1])
HEAD = header_bytes(len(COUNTS))

LETTERS = b'WRSTXFIDA'
WORD = 0xffffffff
EDGES = [0, 1, 0x7f, 0x80, 0xff, 0x100, 0xffff, 0x10000, 0x80000000, WORD]
# What the other fields are while one is at an edge.
BESIDE = [(0, 0, 0), (0, 0xff, 0), (0xffff, WORD, 0), (0, WORD, WORD)]
# A right record, to stand before and after another one.
PLAIN = record(b'R 0')
BLOCKS = [512, 1024, 4096, 8192, 16384, 32768, 65536]

RANDOM_SEED = 1
RANDOM_TRACES = 2000


def changed(data, place, value):
    """Data with another byte at a place."""
    return data[:place] + bytes([value]) + data[place + 1:]


def changes(places):
    """The trace with one byte changed, to several values in turn."""
    for place in places:
        old = TRACE[place]
        for value in sorted({0, 1, old ^ 1, old ^ 0x80, old + 1 & 0xff, 0xff} - {old}):
            yield 'byte %d is %02x' % (place, value), changed(TRACE, place, value)


def cut_short():
    for length in range(len(TRACE)):
        yield '%d bytes' % length, TRACE[:length]


def header_bytes_changed():
    return changes(range(HEAD))


def record_bytes_changed():
    return changes(range(HEAD, len(TRACE)))


def between(one):
    """A trace of a record between two right ones."""
    return join(PLAIN + one + PLAIN)


def letters():
    for value in range(256):
        yield '%02x' % value, between(changed(bytes(RECORD.size), 0, value))


def fields():
    """Each field of each letter at each edge."""
    for letter, place, edge, beside in product(LETTERS, range(3), EDGES, BESIDE):
        values = [*beside[:place], edge, *beside[place + 1:]]
        if values[0] <= 0xffff:
            one = RECORD.pack(bytes([letter]), 0, *values)
            yield '%c %x %x %x' % (letter, *values), between(one)


def longer():
    for fill, length in product((b'\0', b'\xff', PLAIN), (1, 2, 11, 12, 13, 4096, 65536)):
        more = (fill * length)[:length]
        yield '%d bytes' % length, TRACE + more
        yield '%d bytes after no record' % length, join(b'') + more


def blocks():
    """Traces that end near the end of a block, cut short and longer."""
    for size, near in product(BLOCKS, (-1, 0, 1)):
        calls = size // RECORD.size + near
        trace = join((DATA * (calls // CALLS + 1))[:RECORD.size * calls])
        for length in (-13, -12, -11, -2, -1):
            yield '%d records, %d bytes' % (calls, length), trace[:length]
        for length in (0, 1, 2, 3, 12):
            yield '%d records, %d bytes more' % (calls, length), trace + PLAIN[:length]


def wrapped(counts):
    """The trace of these counts, with its starts cut to 32 bits."""
    return header(len(counts), [(start & WORD, count) for start, count in rows(counts)]) + DATA


def overflows():
    """Counts past 32 bits: in sum or as bytes. Cut to 32 bits, many of them are right."""
    for counts in (
            [WORD], [1 << 31], [1 << 30], [WORD // 12], [WORD // 12 + 1], [CALLS + (1 << 30)],
            [CALLS + (3 << 30)], [WORD, CALLS + 1], [CALLS + 1, WORD], [CALLS, 1 << 30],
            [CALLS, WORD], [CALLS, MOST_BYTES // 12], [1 << 31, (1 << 31) + CALLS],
            [CALLS, 1 << 31, 1 << 31], [(1 << 30) + CALLS] + [1 << 30] * 3, [WORD] * 64,
            [1 << 26] * 63 + [(1 << 26) + CALLS], [CALLS + (1 << 26)] + [1 << 26] * 63,
            [1 << 24] * 63 + [(1 << 24) + CALLS], [WORD // 12 // 64 + 1] * 64):
        yield ' '.join('%x' % count for count in counts), wrapped(counts)


def limits():
    """Tables that ask for the most records that 16 MiB take, and near it; few are there."""
    for sections, near in product((1, 2, 3, 64), (-1, 0, 1, 2)):
        most = (MOST_BYTES - header_bytes(sections)) // RECORD.size + near
        empty = [0] * (sections - 1)
        yield '%d sections, first %d' % (sections, most), wrapped([most] + empty)
        yield '%d sections, last %d' % (sections, most), wrapped(empty + [most])
        yield '%d sections, all %d' % (sections, most), wrapped(
            [CALLS] * (sections - 1) + [most - CALLS * (sections - 1)])


def starts():
    table = rows(COUNTS)
    for section, (place, count) in enumerate(table):
        for other in (0, HEAD, place - HEAD, place - 12, place - 1, place + 1, place + 8,
                      place + 12, place + (1 << 8), place + (1 << 31), WORD):
            moved = table[:section] + [(other, count)] + table[section + 1:]
            yield 'section %d at %x' % (section, other), header(len(table), moved) + DATA


def gaps():
    """Bytes before a section, with starts that say so."""
    table = rows(COUNTS)
    for section, gap in product(range(len(table)), (1, 12)):
        place = table[section][0] - HEAD
        moved = table[:section] + [(start + gap, count) for start, count in table[section:]]
        data = DATA[:place] + bytes(gap) + DATA[place:]
        yield '%d bytes before section %d' % (gap, section), header(len(table), moved) + data


def layouts():
    """Starts that say where two sections lie, but these do not lie in order, end to end."""
    after, rest = header_bytes(2), CALLS - 7
    size, rest_size = RECORD.size * 7, RECORD.size * rest
    yield 'overlap', header(2, [(after, 7), (after + size - 12, rest + 1)]) + DATA
    yield 'swapped', header(2, [(after + rest_size, 7), (after, rest)]) + DATA[size:] + DATA[:size]
    yield 'the same twice', header(2, [(after, 7), (after, 7)]) + DATA[:size]
    yield 'the same and all', header(2, [(after, 7), (after, CALLS)]) + DATA
    yield 'from the table on', header(2, [(0, 7), (size, rest)]) + DATA
    yield 'in records', header(2, [(0, 7), (7, rest)]) + DATA


def byte_orders():
    right = TRACE[:HEAD]
    big = header(len(COUNTS), rows(COUNTS), '>')
    yield 'header', big + DATA
    yield 'section count', right[:4] + big[4:6] + right[6:] + DATA
    yield 'table', right[:6] + big[6:] + DATA
    yield 'mark', right[3::-1] + right[4:] + DATA
    yield 'records', right + b''.join(
        DATA[place:place + 2] + DATA[place + 2:place + 4][::-1] + DATA[place + 4:place + 8][::-1]
        + DATA[place + 8:place + 12][::-1] for place in range(0, len(DATA), RECORD.size))


def section_counts():
    """Each with a table of as many sections, and with another table."""
    for sections in [*range(67), 127, 128, 255, 256, 257, 320, 0x4000, 0xffff]:
        empty = header(sections, rows([0] * sections))
        yield '%d, no record' % sections, empty
        yield '%d, no record, longer' % sections, empty + DATA
        yield '%d' % sections, header(sections, rows(([0] * sections + [CALLS])[1:])) + DATA
        yield '%d, another table' % sections, header(sections, rows(COUNTS)) + DATA


def moved_records():
    for place in range(HEAD, len(TRACE), RECORD.size):
        before, one, after = TRACE[:place], TRACE[place:place + 12], TRACE[place + 12:]
        yield 'at %d, twice' % place, before + one + one + after
        yield 'at %d, removed' % place, before + after
        yield 'at %d, after the next' % place, before + after[:12] + one + after[12:]


def moved_bytes():
    for place in range(len(TRACE)):
        yield '%d, twice' % place, TRACE[:place + 1] + TRACE[place:]
        yield '%d, removed' % place, TRACE[:place] + TRACE[place + 1:]


FAULTS = {
    'mark': lambda trace: changed(trace, 3, 0x53),
    'no section': lambda trace: changed(trace, 4, 0),
    '65 sections': lambda trace: changed(trace, 4, 65),
    'start': lambda trace: changed(trace, HEAD - 8, 0),
    'above 16 MiB': lambda trace: changed(trace, HEAD - 1, 1),
    'a count less': lambda trace: changed(trace, HEAD - 4, 6),
    'a count more': lambda trace: changed(trace, HEAD - 4, 8),
    'first record': lambda trace: changed(trace, HEAD, 0x47),
    'last record': lambda trace: changed(trace, HEAD + RECORD.size * (CALLS - 1) + 1, 1),
    'no table': lambda trace: trace[:20],
    'cut short': lambda trace: trace[:-1],
    'longer': lambda trace: trace + b'W',
}


def two_faults():
    for one, other in permutations(FAULTS, 2):
        yield '%s, %s' % (one, other), FAULTS[other](FAULTS[one](TRACE))


def wrong_and_cut():
    """A wrong record in the middle, and the end at each byte around it."""
    place = HEAD + RECORD.size * 9
    trace = changed(TRACE, place, 0)
    for length in range(place - 13, place + 26):
        yield '%d bytes' % length, trace[:length]


def any_record(source, head):
    return head + RECORD.size * source.below(CALLS)


def other_record(source, trace, head):
    """Another record, often a right one."""
    place = any_record(source, head)
    values = [source.pick([0, 0, edge]) for edge
              in (source.below(0x400), source.pick(EDGES), source.pick(EDGES))]
    one = RECORD.pack(bytes([source.pick(LETTERS)]), 0, *values)
    return trace[:place] + one + trace[place + 12:]


def swap_records(source, trace, head):
    one, other = any_record(source, head), any_record(source, head)
    first, second = trace[one:one + 12], trace[other:other + 12]
    trace = trace[:one] + second + trace[one + 12:]
    return trace[:other] + first + trace[other + 12:]


def change_record_byte(source, trace, head):
    return changed(trace, any_record(source, head) + source.below(RECORD.size), source.below(256))


def change_header_byte(source, trace, head):
    return changed(trace, source.below(head), source.pick([source.below(256), source.below(4)]))


def remove_bytes(source, trace, _):
    place, length = source.below(len(trace) + 1), source.pick([1, 2, 4, 8, 12])
    return trace[:place] + trace[place + length:]


def repeat_bytes(source, trace, _):
    place, length = source.below(len(trace) + 1), source.pick([1, 2, 4, 8, 12])
    return trace[:place] + trace[max(place - length, 0):]


def cut_end(source, trace, head):
    return trace[:any_record(source, head) + source.below(RECORD.size)]


MUTATIONS = [other_record] * 6 + [swap_records] * 3 + [change_record_byte] * 3 + [
    change_header_byte, remove_bytes, repeat_bytes, cut_end]


def random_damage():
    source = Source(RANDOM_SEED)
    for number in range(RANDOM_TRACES):
        lengths = source.pick([[], COUNTS[:-1], [0] * 40 + [1] * 23])
        trace, head = join(DATA, lengths), header_bytes(len(lengths) + 1)
        for _ in range(1 + source.below(3)):
            trace = source.pick(MUTATIONS)(source, trace, head)
        yield '%d' % number, trace


KINDS = [cut_short, header_bytes_changed, record_bytes_changed, letters, fields, longer, blocks,
         overflows, limits, starts, gaps, layouts, byte_orders, section_counts, moved_records,
         moved_bytes, two_faults, wrong_and_cut, random_damage]


def long_traces():
    """Traces of some blocks, by name: a sound one, and the same with a fault."""
    table = header_bytes(7)
    trace = pack(generated(2, 2000), any_lengths(Source(2), 2000, 7))
    return {
        'sound': trace, 'cut short': trace[:-1], 'longer': trace + b'W', 'mark': b'I' + trace,
        'no section': changed(trace, 4, 0), 'start': changed(trace, table - 8, 1),
        'above 16 MiB': changed(trace, table - 1, 1),
        'record': changed(trace, table + RECORD.size * 1000, 0),
    }
