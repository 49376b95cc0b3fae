"""Traces of the calls of a script, its sections by their lengths.

Lines that name no call are skipped, as a session skips them. The first sections have the lengths
given, a last one has the rest. The format is that of thymewax.trace.
"""

from thymewax import session, trace


def record(line):
    """The record of a line that names a call."""
    return trace.record(session.call_of(line))


def records(script):
    """The records of a script's calls, end to end."""
    return trace.records(session.calls(script))


def pack(script, lengths=()):
    """The trace of a script."""
    return trace.join(records(script), lengths)


def any_lengths(source, calls, sections):
    """Lengths of all sections but the last. Of seven sections or more the first, the third and the
    last are empty."""
    places = sorted(source.below(calls + 1) for _ in range(sections - 1))
    if sections >= 7:
        places[0], places[2], places[-1] = 0, places[1], calls
    return [place - before for before, place in zip([0] + places, places)]
