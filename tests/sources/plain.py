#!/usr/bin/env python3
"""Holds the plain engine to this: where a word lies is its own (`plain.areas`).

    plain.py

From the repository's root. It reads crates.txt and crates/*/src without comments, contracts and literals. No function of
the group `plain engine` calls a function of `ring`, of the group `ring engine` or of the group `interface`, but for those
of crates that know no place: one stores a table entry, one makes the two tests of bank and store. Prints a line for each
that does. If there is none, each damage is made to a copy, and must be seen. Exit status 0 only if all is so.
"""

import pathlib
import re
import sys
from collections.abc import Iterator

sys.path.insert(0, str(pathlib.Path(__file__).resolve().parents[2]))

from tests.sources.code import source

HEADING = re.compile(r'# ([a-z -]+): ')
CRATE = re.compile(r'(\w+)(?: +[\w=+]+)* *:')
OWN = 'plain engine'
WITH_RINGS = ('ring engine', 'interface')
KNOW_NO_PLACE = {'table_entries', 'faults'}

# The source, what is replaced there and by what.
DAMAGES = (
    ('crates/plain_words/src/lib.rt', 'return store[a.base + i as usize];', 'return ring::look(r, a.base, store, i);'),
    ('crates/plain_moves/src/lib.rt', 'Op::Push(w) => push(store, a, w),', 'Op::Push(w) => ring_moves::apply(store, a, w),'),
    ('crates/plain_words/src/lib.rt', 'cmdr: word(store, a.cmdr, 0),', 'cmdr: rings::word(store, a.cmdr, 0),'),
    ('crates/plain/src/lib.rt', 'settle(b, store, output, e)\n', 'settle::settle(b, store, output, e)\n'),
    ('crates/plain/src/lib.rt', '    serve(b, store, output, call)\n', '    controller::step(b, store, output, call)\n'),
)


def groups(text: str) -> dict[str, set[str]]:
    found, name = {}, ''
    for line in text.splitlines():
        if heading := HEADING.match(line):
            name = heading[1]
        elif crate := CRATE.match(line):
            found.setdefault(name, set()).add(crate[1])
    return found


def faults(texts: dict[str, str], own: set[str], barred: set[str]) -> Iterator[str]:
    for path, text in texts.items():
        each = source(path, text)
        for one in each.functions if each.crate in own else ():
            for call in one.calls:
                if call.crate in barred and call.name.islower():  # a name with a capital makes a struct
                    yield f'{path}: {one} calls {call.crate}::{call.name}'


def main() -> None:
    crates = groups(pathlib.Path('crates.txt').read_text())
    own = crates[OWN]
    barred = {'ring'}.union(*(crates[name] for name in WITH_RINGS)) - KNOW_NO_PLACE
    texts = {path.as_posix(): path.read_text() for crate in sorted(own)
             for path in sorted(pathlib.Path(f'crates/{crate}/src').glob('*.rt'))}
    wrong = list(faults(texts, own, barred))
    for path, old, new in () if wrong else DAMAGES:
        damaged = {**texts, path: texts[path].replace(old, new, 1)}
        if texts[path].count(old) != 1 or not list(faults(damaged, own, barred)):
            wrong.append(f'{path}: not seen: {new.strip()}')
    print('\n'.join(wrong) if wrong else f'{len(own)} crates of the plain engine call nothing that knows a ring; '
          f'{len(DAMAGES)} damages are seen')
    sys.exit(bool(wrong))


main()
