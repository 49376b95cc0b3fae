#!/usr/bin/env python3
"""Holds contracts to what they may cite and ask.

    contracts.py

From the repository's root. A contract, and a definition, cites specs/ and the library alone: no `use` in crates/*/src
or crates/*/specs leads into a proofs folder, nor does a path in the text, but for those of the library (`Rattle.std`).
Every public function has an `ensures`; the functions of a public trait are public. Every public function that has a
`requires` stands in the table of docs/ARCHITECTURE.md on what layers ask of their callers, and every function of that
table has one; so no function of the interface has. Prints a line for each that is not so. Exit status 0 only if there
is none.
"""

import pathlib
import re
import sys

CRATES = pathlib.Path('crates')
# A public function with its contract: up to the brace that opens its body, at the start of a line.
PUBLIC = re.compile(r'^\s*pub (?:extern "C" )?fn (\w+)(.*?)(?:^\s*\{$|\{\n)', re.M | re.S)
# A public trait, and a function in it with its contract: up to the end of its line or to the brace that opens its body.
TRAIT = re.compile(r'^pub trait \w+.*?\{\n(.*?)^\}$', re.M | re.S)
MEMBER = re.compile(r'^    (?:final )?fn (\w+)(.*?)(?:;$|^\s*\{$|\{\n)', re.M | re.S)
INTO_PROOFS = re.compile(r'(?<!\bRattle\.std)\.proofs\b')
# A clause of either kind, with a name where there are several.
ENSURES = re.compile(r'\bensures\*?(?: \w+)? \{')
REQUIRES = re.compile(r'\brequires\*?(?: \w+)? \{')
ASKS = '| layer | what it asks of its caller | why |'


def asked(document: str):
    """The functions of the table, as crate::name."""
    rows = document[document.index(ASKS):].split('\n\n')[0].splitlines()[2:]
    for row in rows:
        crate = ''
        for name in re.findall(r'`((?:\w+::)*\w+)`', row.split(' | ')[0]):
            if '::' in name:
                crate = name.split('::')[0]
            yield f'{crate}::{name.split("::")[-1]}'


def public_functions(text: str):
    """The public functions of a file, each with its contract."""
    yield from PUBLIC.findall(text)
    for members in TRAIT.findall(text):
        yield from MEMBER.findall(members)


def main() -> None:
    wrong, public, asking = [], 0, set()
    for path in sorted([*CRATES.glob('*/src/*.rt'), *CRATES.glob('*/specs/*.antt')]):
        for number, line in enumerate(path.read_text().splitlines(), 1):
            if not line.lstrip().startswith(('//', '--')) and INTO_PROOFS.search(line):
                wrong.append(f'{path}:{number}: cites a proof: {line.strip()}')
    for path in sorted(CRATES.glob('*/src/*.rt')):
        for name, contract in public_functions(path.read_text()):
            public += 1
            if not ENSURES.search(contract):
                wrong.append(f'{path}: {name} is public and promises nothing')
            if REQUIRES.search(contract):
                asking.add(f'{path.parts[1]}::{name}')
    table = set(asked(pathlib.Path('docs/ARCHITECTURE.md').read_text()))
    wrong += [f'docs/ARCHITECTURE.md: {name} asks something of its caller, and is not in the table' for name in sorted(asking - table)]
    wrong += [f'docs/ARCHITECTURE.md: {name} is in the table, and is no public function that asks something' for name in sorted(table - asking)]
    print('\n'.join(wrong) if wrong else f'{public} public functions promise something, {len(asking)} ask something; all contracts cite specs alone')
    sys.exit(bool(wrong))


main()
