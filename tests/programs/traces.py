#!/usr/bin/env python3
"""Tries replay programs on traces, sound and damaged.

    traces.py REPLAY SESSION REFERENCE

REPLAY and REFERENCE are commands that read a trace from standard input, SESSION is one that reads a
script. For each trace both must print SESSION's answers to the records that a replay does
(`expected` of shared/replayed.py), then the line of the number that ends it, if one does, with
status 0 and no message. REPLAY alone gets traces in pieces and endless ones, and little memory.
docs/GENERATOR.md gives the rule of the traces. Exit status 0 only if all of it holds and every kind
of trace, every number and an answer 0 for every letter occurred.
"""

import pathlib
import shlex
import subprocess
import sys
from collections import Counter
from itertools import chain, repeat

sys.path.insert(0, str(pathlib.Path(__file__).resolve().parents[2]))

from tests.programs.difference import first_difference, shown
from tests.scripts.lines import call_lines
from tests.scripts.source import Source
from tests.shared import faults
from tests.shared.feeding import bounded, fed, pieces
from tests.shared.packing import any_lengths, pack, records
from tests.shared.replayed import ENDS, MOST, call_line, expected
from tests.shared.trial import Wrong, generated
from thymewax import Answer, Number
from thymewax.trace import MOST_BYTES, RECORD, header, header_bytes, join, rows

SEEDS = (1, 2, 3, 5, 8, 13, 21, 34)
CALLS = 100000
SHORT_CALLS = (1, 2, 7)
SECTIONS = (1, 2, 7, 64)
PIECES = (1, 5, 11, 12, 13, 4095, 4096, 4097)
# How far a program may read past what it needs (`replay.program`).
AHEAD = 65536
# An endless input, for as long as it matters.
FILL, FILLS = bytes(4096), 64
SECONDS = 60
SHOWN_BYTES = 1000


def run(program, data):
    """What a command writes."""
    try:
        done = subprocess.run(shlex.split(program), input=data, capture_output=True,
                              timeout=SECONDS)
    except (OSError, subprocess.TimeoutExpired) as error:
        raise Wrong(str(error)) from None
    if done.returncode != 0 or done.stderr:
        raise Wrong('%s: status %d, message %r' % (program, done.returncode, done.stderr))
    return done.stdout


def compare(program, output, wanted):
    if output != wanted:
        output, wanted = output.split(b'\n'), wanted.split(b'\n')
        place = first_difference(output, wanted)
        raise Wrong('%s: line %d is %s, expected %s'
                    % (program, place + 1, shown(output, place), shown(wanted, place)))


class Trial:
    """The programs, and what they were tried on."""

    def __init__(self, replay, session, reference):
        self.replay, self.session, self.reference = replay, session, reference
        self.case = None
        self.kinds, self.ends, self.letters = Counter(), Counter(), Counter()
        self.known = {}
        self.seen = set()

    def begin(self, kind, name, trace):
        self.case = kind, name, trace
        self.kinds[kind] += 1

    def answers(self, script):
        """SESSION's answers, kept for other traces of the same calls."""
        if script not in self.known:
            self.known[script] = run(self.session, script)
        return self.known[script]

    def wanted(self, trace):
        """The output for a trace, and the number that ends it."""
        done, number = expected(trace)
        output = self.answers(b''.join(map(call_line, done)))
        if output.count(b'\n') != len(done):
            raise Wrong('%s: %d answers to %d calls'
                        % (self.session, output.count(b'\n'), len(done)))
        return output + (str(Answer(0, number)).encode() + b'\n' if number else b''), number

    def both(self, trace, wanted, number):
        self.ends[number] += 1
        for program in (self.reference, self.replay):
            compare(program, run(program, trace), wanted)

    def sound(self, kind, name, script, trace):
        """A trace of the calls of a script."""
        self.begin(kind, name, trace)
        wanted = self.answers(script)
        if self.wanted(trace) != (wanted, Number.DONE):
            raise Wrong('not the calls of the script')
        self.both(trace, wanted, Number.DONE)

    def damaged(self, kind, name, trace):
        """A trace that may end with any number; each one once."""
        if trace not in self.seen:
            self.seen.add(trace)
            self.begin(kind, name, trace)
            self.both(trace, *self.wanted(trace))


def count_letters(trial, script):
    answers = trial.answers(script).splitlines()
    for (_, call), answer in zip(call_lines(script, False), answers):
        trial.letters[call[:1]] += answer.endswith(b' 00')


def sound_traces(trial):
    for seed in SEEDS:
        for calls in (*SHORT_CALLS, CALLS // len(SEEDS)):
            script, source = generated(seed, calls), Source(seed)
            for sections in SECTIONS:
                trace = pack(script, any_lengths(source, calls, sections))
                name = 'seed %d, %d calls' % (seed, calls)
                trial.sound('sound in %d' % sections, name, script, trace)
            count_letters(trial, script)
    for sections in SECTIONS:
        trial.sound('no record', '%d sections' % sections, b'', join(b'', [0] * (sections - 1)))


def largest_trace(trial):
    """As many records as fit, with little memory; one more is refused before any record."""
    most = (MOST_BYTES - header_bytes(1)) // RECORD.size
    calls = [call for _, call in call_lines(generated(SEEDS[0], CALLS // len(SEEDS)), False)]
    times = most // len(calls) + 1
    data = (records(b'\n'.join(calls)) * times)[:RECORD.size * most]
    trace = join(data)
    trial.begin('16 MiB', '%d records' % most, trace)
    wanted = run(trial.session, b'\n'.join((calls * times)[:most]))
    compare(trial.reference, run(trial.reference, trace), wanted)
    compare(trial.replay, bounded(trial.replay, trace), wanted)
    more = header(1, rows([most + 1])) + data + faults.PLAIN
    trial.damaged('16 MiB', '%d records' % (most + 1), more)


def damaged_traces(trial):
    for kind in faults.KINDS:
        for name, trace in kind():
            trial.damaged(kind_name(kind), name, trace)


def kind_name(kind):
    return kind.__name__.replace('_', ' ')


def in_pieces(trial):
    for name, trace in faults.long_traces().items():
        for length in PIECES:
            trial.begin('in pieces', '%s, %d bytes each' % (name, length), trace)
            output, _ = fed(trial.replay, pieces(trace, length))
            compare(trial.replay, output, trial.wanted(trace)[0])


def endless(trial):
    """The program ends and does not read on."""
    for name, trace in faults.long_traces().items():
        trial.begin('endless', name, trace)
        output, taken = fed(trial.replay, chain([trace], repeat(FILL, FILLS)))
        compare(trial.replay, output, trial.wanted(trace + FILL)[0])
        if taken > len(trace) + AHEAD:
            raise Wrong('%s: %d bytes read' % (trial.replay, taken))


def failure(trial, wrong):
    kind, name, trace = trial.case
    hexed = trace.hex() if len(trace) <= SHOWN_BYTES else '%d bytes' % len(trace)
    return 'traces: %s, %s: %s\ntrace: %s' % (kind, name, wrong, hexed)


def report(trial):
    """Whether all occurred that should; prints what did."""
    kinds = ['sound in %d' % sections for sections in SECTIONS] + ['no record', '16 MiB']
    kinds += list(map(kind_name, faults.KINDS)) + ['in pieces', 'endless']
    print('traces: %d cases: %s; ended by %s' % (
        sum(trial.kinds.values()),
        ', '.join('%s: %d' % (kind, trial.kinds[kind]) for kind in kinds),
        ', '.join('%s: %d' % (int(number) or 'none', trial.ends[number]) for number in ENDS)))
    missing = [kind for kind in kinds if not trial.kinds[kind]]
    missing += ['an end by %d' % number for number in ENDS if not trial.ends[number]]
    missing += ['%s answered 0' % letter.decode() for letter in MOST if not trial.letters[letter]]
    if missing:
        print('traces: missing: %s' % ', '.join(missing))
    return not missing


def main():
    if len(sys.argv) != 4:
        sys.exit(__doc__)
    trial = Trial(*sys.argv[1:])
    try:
        for part in (sound_traces, damaged_traces, in_pieces, endless, largest_trace):
            part(trial)
    except Wrong as wrong:
        sys.exit(failure(trial, wrong))
    sys.exit(0 if report(trial) else 1)


if __name__ == '__main__':
    main()
