#!/usr/bin/env python3
"""Counts which answers and situations a set of scripts has reached.

    coverage.py [--test] SCRIPT OUTPUT [SCRIPT OUTPUT ...]

Each call line of a script is paired with its output line. Exit status 1 if something that can occur
has not, 2 if lines do not pair. With --test the scripts have set-ups and offload bursts: the lines
B, G, O and P of lines.py.
"""

import pathlib
import sys

sys.path.insert(0, str(pathlib.Path(__file__).resolve().parents[2]))

from tests.scripts.reached.counts import Counts
from tests.scripts.reached.report import report


def main():
    paths = [pathlib.Path(word) for word in sys.argv[1:] if word != '--test']
    test = '--test' in sys.argv[1:]
    if not paths or len(paths) % 2:
        sys.exit('usage: coverage.py [--test] SCRIPT OUTPUT [SCRIPT OUTPUT ...]')
    counts = Counts()
    for script, output in zip(paths[::2], paths[1::2]):
        if not counts.add(script.read_bytes(), output.read_bytes().splitlines(), test):
            print('%s: calls and answers do not pair' % script)
            sys.exit(2)
    sys.exit(0 if report(counts, test) else 1)


if __name__ == '__main__':
    main()
