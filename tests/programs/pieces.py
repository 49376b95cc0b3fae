#!/usr/bin/env python3
"""What no proof covers of a session program: how it reads, writes and ends.

    pieces.py PROGRAM

The same script in pieces of any length gives the same output; a million calls need
less memory than their script. Reads and writes that fail: descriptors.py. Exit
status 0 only if all of it holds.
"""

import pathlib
import sys

sys.path.insert(0, str(pathlib.Path(__file__).resolve().parents[2]))

from tests.shared.feeding import MEMORY_KIB, bounded, fed, pieces
from tests.shared.trial import Wrong, generated

PIECES = [1, 7, 4095, 4096, 4097]
CALLS = 1000000


def check(program):
    script = generated(2, 2000)
    whole, _ = fed(program, [script])
    for length in PIECES:
        if fed(program, pieces(script, length))[0] != whole:
            raise Wrong(f"pieces of {length} bytes: another output")
    if bounded(program, generated(2, CALLS)).count(b"\n") != CALLS:
        raise Wrong(f"{CALLS} calls within {MEMORY_KIB} KiB: not as many answers")
    print(f"pieces: {len(whole)} bytes the same in pieces of {PIECES}; {CALLS} calls within "
          f"{MEMORY_KIB} KiB")


def main():
    if len(sys.argv) != 2:
        sys.exit(__doc__)
    try:
        check(sys.argv[1])
    except Wrong as wrong:
        sys.exit(f"pieces: {wrong}")


if __name__ == "__main__":
    main()
