#!/usr/bin/env python3
"""tools/pack and tools/unpack: round trips over generated scripts.

    pack.py

Exit status 0 only if all is as expected.
"""

import os
import pathlib
import subprocess
import sys
import time

sys.path.insert(0, str(pathlib.Path(__file__).resolve().parents[2]))

from tests import ROOT
from tests.scripts.source import Source
from tests.shared.trial import equal, generated, main, tool
from thymewax import session, trace

SEEDS = (1, 2, 3)
LENGTHS = (0, 7, 5000)
SECTIONS = (1, 7, 64)
MARKERS = (b'---', b'--- warm up', b'----', b'---\r')


def sectioned(source, script, sections):
    """The script with marker lines at random places."""
    lines = session.lines(script)
    for _ in range(sections - 1):
        lines.insert(source.below(len(lines) + 1), source.pick(MARKERS))
    return b'\n'.join(lines) + b'\n'


def wanted_calls(script):
    """The calls of each section, the marker lines cut out by hand."""
    parts = [[]]
    for line in script.split(b'\n'):
        if line[:3] == b'---':
            parts.append([])
        elif session.call_of(line):
            parts[-1].append(session.call_of(line))
    return parts


def made(name, kind, *arguments, data):
    status, output, message = tool(name, *arguments, data=data)
    equal(kind, name, (status, message), (0, b''))
    return output


def round_trips():
    for seed in SEEDS:
        source = Source(seed)
        for length in LENGTHS:
            script = generated(seed, length)
            for sections in SECTIONS:
                both_ways(sectioned(source, script, sections), sections)


def waiting():
    """A script that comes in two pieces through an input that is not ready between them."""
    read_end, write_end = os.pipe()
    os.set_blocking(read_end, False)
    run = subprocess.Popen([sys.executable, '-B', ROOT / 'tools/pack'], stdin=read_end,
                           stdout=subprocess.PIPE)
    os.close(read_end)
    for piece in (b'W 40 0\nR c', b'0\n'):
        os.write(write_end, piece)
        time.sleep(1)
    os.close(write_end)
    file = run.communicate()[0]
    equal('not ready', 'status', run.returncode, 0)
    equal('not ready', 'calls', list(trace.calls(trace.sections(file)[0])),
          [session.call_of(b'W 40 0'), session.call_of(b'R c0')])


def both_ways(script, sections):
    """Pack gives the calls of the script; unpack gives them again; pack of that the same bytes."""
    file = made('pack', 'pack', '--skip', data=script)
    parts = [list(trace.calls(part)) for part in trace.sections(file)]
    equal('pack', 'sections', len(parts), sections)
    equal('pack', 'calls', parts, wanted_calls(script))
    again = made('unpack', 'unpack', data=file)
    equal('unpack', 'calls', wanted_calls(again), parts)
    equal('unpack, then pack', 'bytes', made('pack', 'pack', data=again), file)


def strict():
    """Without --skip: comments and empty lines are skipped, and a clean script needs no option."""
    script = b'# release\nW 40 0\n\n---\n#W 40 0\nR 0C0'
    file = made('pack', 'strict', data=script)
    equal('strict', 'script', made('unpack', 'strict', data=file),
          b'W 0040 00000000\n---\nR 00c0\n')
    equal('strict', 'with --skip', made('pack', 'strict', '--skip', data=script), file)


def help_texts():
    for name in ('pack', 'unpack', 'explain', 'wave'):
        status, output, message = tool(name, '--help')
        equal('help', name, (status, message, output.startswith(b'usage: %s ' % name.encode())),
              (0, b'', True))
        equal('help', name, b'---' in output, True)


if __name__ == '__main__':
    main('pack', [round_trips, strict, waiting, help_texts])
