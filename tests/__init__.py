"""The tests, in a folder for each thing that is tested.

- `programs`: session, replay and trial, held to the second program;
- `hosts`: the archive, through header and Python package;
- `tools`: the programs of tools/ and what they write;
- `documents`: what the documents say of the repository;
- `scripts`: the generated scripts, and what they reach;
- `shared`: what tests of several folders use.

A test runs by itself, as `python3 tests/hosts/calls.py`: its first lines put the repository's root
on the path, and this module the Python package and the modules of tools/.
"""

import pathlib
import sys

ROOT = pathlib.Path(__file__).resolve().parent.parent
PACKAGE = ROOT / 'bindings/python'
sys.path[:0] = [str(PACKAGE), str(ROOT / 'tools')]
