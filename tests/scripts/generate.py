#!/usr/bin/env python3
"""Writes a test script for a model of an I3C controller's host interface.

    generate.py SEED LINES [--test]

The script goes to standard output. It has exactly LINES calls; lines that are no calls come on top.
The same arguments give the same bytes. With --test it also has set-ups and offload bursts: the
lines B, G, O and P of lines.py. docs/GENERATOR.md gives the rule.
"""

import pathlib
import sys

sys.path.insert(0, str(pathlib.Path(__file__).resolve().parents[2]))

from tests.scripts.generator.rounds import Walk
from tests.scripts.generator.script import Full, Script
from tests.scripts.source import Source


def main():
    arguments = [word for word in sys.argv[1:] if word != '--test']
    if len(arguments) != 2 or not all(word.isdigit() for word in arguments):
        sys.exit('usage: generate.py SEED LINES [--test]')
    seed, calls = int(arguments[0]), int(arguments[1])
    script = Script(Source(seed), calls, sys.stdout.buffer, '--test' in sys.argv[1:])
    try:
        Walk(script, seed).run()
    except Full:
        script.end(seed)


if __name__ == '__main__':
    main()
