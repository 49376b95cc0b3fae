#!/usr/bin/env python3
"""Traces through the Python binding: replay, sections, and the format as Python reads it.

    replays.py

Needs the shared library (`python3 -m thymewax.build`). Exit status 0 only if all is as expected.
"""

import pathlib
import sys

sys.path.insert(0, str(pathlib.Path(__file__).resolve().parents[2]))

from tests.shared import faults
from tests.shared.packing import pack
from tests.shared.replayed import ENDS
from tests.shared.trial import equal, generated, main, raises
from thymewax import Answer, Model, Number, Refused, section, sections, session, trace

# A section of 64 has few records; of these scripts some sections have none.
SCRIPTS = [(seed, calls) for seed in (1, 2, 3) for calls in (0, 1, 7, 3000)]
# What a replay tells where it did no record.
NO_ANSWER = Answer(0, Number.DONE)
VERSION = 0x100
CUTS = [[], [0], [5, 0, 900], [1] * 63]


def memory(model):
    return model.image(), model.store()


def one_by_one(model, calls):
    """The answer of the last."""
    last = NO_ANSWER
    for call in calls:
        last = model.make(call)
    return last


def replays():
    """A replay leaves bank and store as its calls do, made each by itself."""
    for seed, count in SCRIPTS:
        script = generated(seed, count)
        calls = list(session.calls(script))
        for lengths in CUTS:
            if sum(lengths) > len(calls):
                continue
            file = pack(script, lengths)
            model, other = Model.set_up(output_words=0), Model.set_up(output_words=0)
            for number, part in enumerate(trace.sections(file)):
                name = 'seed %d, %d calls, section %d' % (seed, count, number)
                made = list(trace.calls(part))
                last = one_by_one(other, made)
                equal('replays', name, model.replay(file, number),
                      (Number.DONE, len(made), last))
                equal('replays', name, memory(model), memory(other))
            equal('replays', 'no such section', model.replay(file, len(lengths) + 1),
                  (Number.NO_SUCH_SECTION, 0, NO_ANSWER))


def limits():
    script = generated(2, 500)
    file, calls = pack(script, [100]), list(session.calls(script))[100:]
    for limit in (0, 1, 2, 199, 399, 400, 401, 1 << 32, (1 << 64) - 1):
        model, other = Model.set_up(), Model.set_up()
        made = calls[:limit]
        last = one_by_one(other, made)
        equal('limits', limit, model.replay(file, 1, limit), (Number.DONE, len(made), last))
        equal('limits', limit, memory(model), memory(other))


def damaged():
    """The library and Python agree on every damaged trace: its sections, or the number; the
    records before a wrong one."""
    ends = dict.fromkeys(ENDS, 0)
    for kind in faults.KINDS:
        for name, file in kind():
            number = compare(kind.__name__ + ', ' + name, file)
            ends[number] += 1
    equal('damaged traces', 'every number', all(ends.values()), True)


def compare(name, file):
    """The number that ends it."""
    model = Model.set_up()
    try:
        parts = trace.sections(file)
    except Refused as error:
        refusal = raises('damaged traces', name, Refused, sections, file)
        equal('damaged traces', name, refusal.number, error.number)
        equal('damaged traces', name, section(file, 0), (error.number, 0, 0))
        equal('damaged traces', name, model.replay(file), (error.number, 0, NO_ANSWER))
        equal('damaged traces', name, (bool(model.replay(file)), bool(section(file, 0))),
              (False, False))
        return error.number
    # Where each part of the file begins and how long it is.
    start, places = trace.header_bytes(len(parts)), []
    for part in parts:
        places.append((Number.DONE, start, len(part)))
        start += len(part)
    equal('damaged traces', name, sections(file), places)
    for number, part in enumerate(parts):
        done, end = before_wrong(part)
        replayed = model.replay(file, number)
        equal('damaged traces', name, (replayed.number, replayed.count, bool(replayed)), 
              (end, done, end == Number.DONE))
        if end:
            return end
    return Number.DONE


def before_wrong(part):
    """How many records are right up to the first wrong one, and its number."""
    done = 0
    try:
        for _ in trace.calls(part):
            done += 1
    except Refused as error:
        return done, error.number
    return done, Number.DONE


def too_long():
    """A file above 16 MiB is of a wrong length, whatever its table says."""
    most = (trace.MOST_BYTES - trace.header_bytes(1)) // trace.RECORD.size
    for count, number in ((most, Number.DONE), (most + 1, Number.WRONG_TABLE)):
        file = trace.header(1, trace.rows([count])) + faults.PLAIN * count
        equal('16 MiB', count, section(file, 0).number, number)
        if number:
            equal('16 MiB', count, raises('16 MiB', count, Refused, trace.sections, file).number,
                  number)
        else:
            equal('16 MiB', count, Model.set_up().replay(file),
                  (Number.DONE, count, (VERSION, Number.DONE)))
            raises('16 MiB', 'one more', ValueError, trace.join, faults.PLAIN * (count + 1))


if __name__ == '__main__':
    main('replays', [replays, limits, damaged, too_long])
