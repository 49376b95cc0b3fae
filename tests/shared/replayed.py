"""What a replay does of a trace, worked out from its bytes (`trace.form`, `trace.wrong`,
`replay.program`). The format is stated here a second time, apart from thymewax.trace."""

from operator import le

from thymewax import Number

MARK = b'I3TR'
# Bytes before the table, of a row of it, of a record; the most of sections and bytes.
START, ROW, RECORD = 6, 8, 12
MOST_SECTIONS, MOST_BYTES = 64, 16 * 1024 * 1024
# The most that offset, first and second value of a right record may be.
WORD = 0xffffffff
MOST = {
    b'W': (0xffff, WORD, 0), b'R': (0xffff, 0, 0), b'S': (0, 0, 0), b'T': (0, 0, 0),
    b'X': (0, 0xff, 0), b'F': (0, 0xff, 0), b'I': (0, 0xff, 0xff), b'D': (0, WORD, WORD),
    b'A': (0, 0, 0),
}
# The numbers that end a replay.
ENDS = (Number.DONE, Number.WRONG_MARK, Number.WRONG_TABLE, Number.WRONG_RECORD)


def number_at(data, place, length):
    return int.from_bytes(data[place:place + length], 'little')


def values(one):
    """Offset, first and second value of a record."""
    return number_at(one, 2, 2), number_at(one, 4, 4), number_at(one, 8, 4)


def is_right(one):
    return one[:1] in MOST and one[1] == 0 and all(map(le, values(one), MOST[one[:1]]))


def call_line(one):
    """The session's line for a right record."""
    used = [b'%x' % value for value, most in zip(values(one), MOST[one[:1]]) if most]
    return b' '.join([one[:1], *used]) + b'\n'


def table_end(trace):
    return START + ROW * number_at(trace, len(MARK), 2)


def asked(trace):
    """How many records the table asks for; None if it is told as wrong before any record."""
    end = table_end(trace)
    if not START + ROW <= end <= START + ROW * MOST_SECTIONS or len(trace) < end:
        return None
    count = 0
    for row in range(START, end, ROW):
        if number_at(trace, row, 4) != end + RECORD * count:
            return None
        count += number_at(trace, row + 4, 4)
    return count if end + RECORD * count <= MOST_BYTES else None


def expected(trace):
    """The records that a replay does, and the number that ends it."""
    if trace[:len(MARK)] != MARK:
        return [], Number.WRONG_MARK
    count = asked(trace)
    if count is None:
        return [], Number.WRONG_TABLE
    body, done = trace[table_end(trace):], []
    for place in range(0, RECORD * count, RECORD):
        one = body[place:place + RECORD]
        if len(one) < RECORD:
            return done, Number.WRONG_TABLE
        if not is_right(one):
            return done, Number.WRONG_RECORD
        done.append(one)
    return done, Number.WRONG_TABLE if len(body) > RECORD * count else Number.DONE


def number_of_file(trace, number):
    """The number that a reader of the whole file gives in place of a replay's: it meets a wrong
    length before a wrong record."""
    whole = table_end(trace) + RECORD * (asked(trace) or 0) == len(trace)
    return Number.WRONG_TABLE if number == Number.WRONG_RECORD and not whole else number
