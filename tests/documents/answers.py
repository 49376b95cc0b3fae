#!/usr/bin/env python3
"""Holds docs/ANSWERS.md to the definitions, and the names of the numbers to each other.

    answers.py

From the repository's root. `numbers` and `ends` in crates/numbers_model/specs/Numbers.antt are what demand 1 is proved of;
the page's table has the same calls, each with the same numbers in the same order, and each number has its row below. A
number has one name wherever it has one: in the core (code and definitions of crates/number), the header, the crate for
Rust, the package for Python, the second program and the page. Prints a line for each that is not so. Exit status 0 only
if there is none.
"""

import pathlib
import re
import sys

CALLS = {
    'Read': 'read', 'Write': 'write', 'Start': 'start', 'Send': 'send', 'Receive': 'receive', 'Finish': 'finish',
    'Interrupt': 'interrupt request', 'Request': 'address request', 'Take': 'address take', 'Trigger': 'trigger',
}
PAGE = 'docs/ANSWERS.md'
DEFINED = 'crates/number/specs/Names.antt'
# Where names stand, and how.
PLACES = {
    'crates/number/src/lib.rt': r'^    (\w+) = (\d+),$',
    'include/thymewax.h': r'^    THYMEWAX_([A-Z_]+) = (\d+)[, ]',
    'bindings/rust/src/number.rs': r'pub const (\w+): Number = Number\((\d+)\);',
    'bindings/python/thymewax/numbers.py': r'^    ([A-Z_]+) = (\d+)$',
    'reference/src/number.rs': r'^pub const (\w+): u8 = (\d+);$',
}


def read(name: str) -> str:
    return pathlib.Path(name).read_text()


def defined_names() -> dict[str, int]:
    return {name: int(number) for name, number in re.findall(r'^(\w+) = (\d+)$', read(DEFINED), re.M)}


def page_names() -> dict[int, str]:
    return {int(number): name for number, name in re.findall(r'^\| (\d+) \|.*\| `(\w+)` \|$', read(PAGE), re.M)}


def constant(name: str) -> str:
    """The name of a constant; that of a variant of the core's enum is told by its capitals."""
    return name if name.isupper() else re.sub(r'(?<!^)(?=[A-Z])', '_', name).upper()


def names() -> list[str]:
    """The names that differ from the page's. 0 is done, and the core has no name for it."""
    page = page_names()
    found = {DEFINED: {number: name.upper() for name, number in defined_names().items()}}
    for place, pattern in PLACES.items():
        found[place] = {int(number): constant(name) for name, number in re.findall(pattern, read(place), re.M)}
    return [f'{place}: {number} is {here.get(number)}, {PAGE} has {name}'
            for place, here in found.items() for number, name in page.items()
            if here.get(number) != name and not (number == 0 and place.startswith('crates/'))] + [
            f'{place}: {number} has no row in {PAGE}' for place, here in found.items() for number in here if number not in page]


def defined(text: str, name: str) -> dict[str, list[int]]:
    """The lines `name (Call ..) = 0 ∷ number.empty ∷ []` of the definition, by the call's name in the table."""
    by_name = defined_names()
    rows = re.findall(rf'^{name} \(?(\w+)[^=]*= (.*) ∷ \[\]$', text, re.M)
    return {CALLS[call]: [0 if word == '0' else by_name[word.removeprefix('number.')] for word in listed.split(' ∷ ')]
            for call, listed in rows}


def tables() -> list[str]:
    text = read('crates/numbers_model/specs/Numbers.antt')
    numbers, ends = defined(text, 'numbers'), defined(text, 'ends')
    if set(numbers) != set(CALLS.values()) or set(ends) != set(numbers):
        sys.exit('Numbers.antt: not a line for each call')
    page = read(PAGE)
    rows = re.findall(r'^\| ([a-z ]+) \| ([\d, ]+) \| ([\d, ]+) \|$', page, re.M)
    table = {call: [[int(number) for number in cell.split(', ')] for cell in cells] for call, *cells in rows}
    wrong = [f'{PAGE}: {call}: {table.get(call)}, defined {[numbers[call], ends[call]]}'
             for call in numbers if table.get(call) != [numbers[call], ends[call]]]
    wrong += [f'{PAGE}: {call} is no call' for call in table if call not in numbers]
    explained = {int(number) for number in re.findall(r'^\| (\d+) \|', page, re.M)}
    used = {number for listed in [*numbers.values(), *ends.values()] for number in listed}
    return wrong + [f'{PAGE}: {number} has no row' for number in sorted(used - explained)]


def main() -> None:
    wrong = tables() + names()
    print('\n'.join(wrong) if wrong else
          f'{len(CALLS)} calls have the numbers of the definition; {len(page_names())} numbers have one name each')
    sys.exit(bool(wrong))


main()
