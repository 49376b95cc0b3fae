"""Writes save files of GTKWave 3.3: which lanes of a dump it shows, in which order and form."""

import os
import pathlib
from collections.abc import Iterable
from typing import NamedTuple

from vcd import INTEGER, STRING, Signal

SUFFIX = '.gtkw'
# GTKWave writes a first line of its own.
MARK = '[*] Written by tools/wave. A save file that GTKWave has written since is kept.'
# Flags of a lane: adjusted to the right, and its form.
TEXT, DECIMAL, HEX, BITS, TITLE = '@820', '@24', '@22', '@28', '@200'
# Window and panes in pixels. A time has 100 at this zoom: enough for the names of most answers.
WIDTH, HEIGHT, NAMES = 1400, 480, 340
ZOOM = -1
# How many times are shown before the marker.
BEFORE = 6
NO_MARKER = -1
NAMED_MARKERS = 26


class Title(NamedTuple):
    """A line between lanes."""

    text: str


def form(signal: Signal) -> str:
    if signal.kind == STRING:
        return TEXT
    if signal.kind == INTEGER:
        return DECIMAL
    return HEX if signal.bits > 8 else BITS


def lane(top: str, one: Signal | Title) -> list[str]:
    if isinstance(one, Title):
        return [TITLE, '-' + one.text]
    return [form(one), '.'.join([top, one.scope, one.full.replace(' ', '')])]


def text(dump: str, save: pathlib.Path, top: str, lanes: Iterable[Signal | Title],
         marker: int = NO_MARKER) -> str:
    """A save file. It opens at the marker, else at the beginning. Both files are named by their
    places, so that it can be opened alone."""
    lines = [
        MARK, '[dumpfile] "%s"' % pathlib.Path(dump).resolve(), '[savefile] "%s"' % save.resolve(),
        '[timestart] %d' % max(marker - BEFORE, 0), '[size] %d %d' % (WIDTH, HEIGHT),
        '*%f %d%s' % (ZOOM, marker, ' %d' % NO_MARKER * NAMED_MARKERS),
        '[sst_width] 0', '[signals_width] %d' % NAMES, '[sst_expanded] 0']
    for one in lanes:
        lines += lane(top, one)
    return ''.join(line + '\n' for line in lines)


def place(dump: str) -> pathlib.Path:
    """Where the save file of a dump stands."""
    return pathlib.Path(os.path.splitext(dump)[0] + SUFFIX)


def is_kept(save: pathlib.Path) -> bool:
    """Whether there is a save file that is not as it was written here."""
    return save.exists() and not save.read_bytes().startswith(os.fsencode(MARK))
