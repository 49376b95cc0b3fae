#!/usr/bin/env python3
"""Lets the documents follow what moved: for use after crates are split or joined.

    follow.py

From the repository's root. In README.md and docs/*.md an edit, function, theorem or definition that is not where it is
cited, and is in one other place, is cited there: in one crate, or of several in one whose name begins with that of the old
one. In the tables of rules each row gets the must-fail edits that name its rule. What is in no place or in several is left
to citations.py and rules.py. Prints the documents that it wrote.
"""

import pathlib
import re
import sys

sys.path.insert(0, str(pathlib.Path(__file__).resolve().parents[2]))

from tests.documents.declared import CRATES, EDITS, TABLE, definitions, functions, names, rows, rules, specs, theorems

DOCUMENTS = [pathlib.Path('README.md'), *sorted(pathlib.Path('docs').glob('*.md'))]
FILES = [(crate, path.stem) for crate, folder in CRATES.items() for path in sorted((folder / 'specs').glob('*.antt'))]


def chosen(old, places: list, crate_of=lambda place: place):
    """The one place of several: the only one, or the only one of a part of the old crate; else the old place."""
    parts = [place for place in places if crate_of(place).startswith(crate_of(old) + '_')]
    return places[0] if len(places) == 1 else parts[0] if len(parts) == 1 else old


def regrouped(home, listed: list[str], has, places, written, crate_of=lambda place: place) -> str:
    """The names by the place that has each: its home, or else the one place that has it."""
    found: dict = {}
    for name in listed:
        others = [] if has(home, name) else [place for place in places if has(place, name)]
        found.setdefault(chosen(home, others, crate_of), []).append(name)
    return '`, `'.join(written(place, group) for place, group in found.items())


def as_function(crate: str, group: list[str]) -> str:
    return f'{crate}::{group[0]}' if len(group) == 1 else f'{crate}::{{{", ".join(group)}}}'


def as_definition(place: tuple[str, str], group: list[str]) -> str:
    crate, file = place
    return f'{"" if len(specs(file)) == 1 else crate + ": "}{file}: {", ".join(group)}'


def followed(token: str) -> str:
    """A token with the places that its names have now."""
    if re.fullmatch(r'[a-z]\w*/\w+', token) and token not in EDITS:
        crate, _, name = token.partition('/')
        return f'{chosen(crate, [other for other in CRATES if f"{other}/{name}" in EDITS])}/{name}'
    if found := re.fullmatch(r'([a-z]\w*)::(?:\w+::)*(\w+|\{[\w, ]+\})', token):
        def declares(crate, name):
            return crate in CRATES and name in functions(crate)
        if all(declares(found[1], name) for name in names(found[2])):
            return token
        return regrouped(found[1], names(found[2]), declares, CRATES, as_function)
    if found := re.fullmatch(r'(?:([a-z]\w*): )?([A-Z]\w*): ([^:]+)', token):
        having = [found[1]] if found[1] else specs(found[2])
        home = (having[0] if len(having) == 1 else '', found[2])
        return regrouped(home, names(found[3]), lambda place, name: place in FILES and name in definitions(*place), FILES,
                         lambda place, group: as_definition(place, group) if place in FILES else token,
                         lambda place: place[0])
    if found := re.fullmatch(r'([a-z]\w*): ([a-z][^:]*)', token):
        return regrouped(found[1], names(found[2]), lambda crate, name: crate in CRATES and name in theorems(crate), CRATES,
                         lambda crate, group: f'{crate}: {", ".join(group)}')
    return token


def with_edits(text: str) -> str:
    """The tables of rules, each row with the edits that name its rule."""
    rule_of = {edit: re.findall(r'^rule: (.*)$', path.read_text(), re.M) for edit, path in EDITS.items()}
    known = {name for name, _, _ in rules()}
    lines = text.splitlines()
    for number, _, cells in rows():
        rule = cells[0].strip('`')
        if rule in known and len(cells) == 6:
            stood = re.findall(r'`([^`]+)`', cells[4])
            named = [edit for edit in EDITS if rule_of[edit] == [rule]]
            kept = [edit for edit in stood if edit in named]
            cells[4] = ', '.join(f'`{edit}`' for edit in [*kept, *(edit for edit in named if edit not in kept)]) or '–'
            lines[number - 1] = f'| {" | ".join(cells)} |'
    return '\n'.join(lines) + '\n'


def main() -> None:
    def cited(text: str) -> str:
        return text if text.startswith('```') else re.sub(r'`([^`\n]+)`', lambda found: f'`{followed(found[1])}`', text)

    for document in DOCUMENTS:
        before = document.read_text()
        after = ''.join(map(cited, re.split(r'(^```.*?^```$)', before, flags=re.M | re.S)))  # fenced blocks stay
        if after != before:
            document.write_text(after)
            print(document)
    before = TABLE.read_text()
    if with_edits(before) != before:
        TABLE.write_text(with_edits(before))
        print(f'{TABLE}: edits')


main()
