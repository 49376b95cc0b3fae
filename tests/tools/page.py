#!/usr/bin/env python3
"""Runs the commands of docs/BENCH.md and compares what they print.

    page.py

A command is a line of a fenced block that begins with `$ `, with the lines up to END where it takes
them; what it prints are the lines up to the next. They run in order in a folder of their own, with
an empty target/. Needs the shared library. Exit status 0 only if every byte is the same, and the
page's pictures are there.
"""

import os
import pathlib
import re
import sys
import tempfile

sys.path.insert(0, str(pathlib.Path(__file__).resolve().parents[2]))

from tests import ROOT
from tests.documents.pages import commands, fenced_blocks
from tests.shared.trial import equal, main, run
from thymewax.library import folder

PAGE = ROOT / 'docs/BENCH.md'
# What the page must show.
TOOLS = (b'tools/session', b'tools/replay', b'tools/pack', b'tools/explain', b'tools/wave')
LEAST = 7
MOST_BYTES = 100000


def page():
    blocks = fenced_blocks(PAGE.read_bytes().splitlines(keepends=True))
    found = [pair for _, block in blocks for pair in commands(block)]
    equal('page', 'commands', len(found) >= LEAST, True)
    for tool in TOOLS:
        equal('page', tool, any(tool in command for command, _ in found), True)
    # The tools find the library by their own place, which is that of the repository.
    library = str(folder().resolve())
    with tempfile.TemporaryDirectory() as name:
        os.chdir(name)
        pathlib.Path('target').mkdir()
        pathlib.Path('tools').symlink_to(ROOT / 'tools')
        for command, wanted in found:
            _, output, message = run(['bash', '-c', command.decode()], THYMEWAX_LIB_DIR=library)
            equal('commands', command.decode(), (output.decode(), message), (wanted.decode(), b''))
        os.chdir(ROOT)


def pictures():
    """The page shows a picture of the wave, and every picture that it names is there and small."""
    names = re.findall(r'^!\[.+\]\((\S+)\)$', PAGE.read_text(), re.MULTILINE)
    equal('pictures', 'the wave', 'wave.png' in names, True)
    for name in names:
        data = (PAGE.parent / name).read_bytes()
        equal('pictures', name, (data[:8], len(data) < MOST_BYTES), (b'\x89PNG\r\n\x1a\n', True))


if __name__ == '__main__':
    main('page', [page, pictures])
