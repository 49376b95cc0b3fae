#!/usr/bin/env python3
"""Holds the rules, their table and the must-fail edits to each other and to the repository.

    rules.py

From the repository's root. Every rule of docs/RULES.md has one row in the tables of rules of docs/TRACEABILITY.md, in
the same section and order, and every row has a rule. What a row names is there: definitions in specs/, functions in src/,
theorems in proofs/, edits, tests that the gate runs. Every must-fail edit names one rule on its second line and stands in
that rule's row alone. Prints a line for each that is not so. Exit status 0 only if there is none.
"""

import pathlib
import re
import sys

sys.path.insert(0, str(pathlib.Path(__file__).resolve().parents[2]))

from tests.documents.declared import (EDITS, TABLE, is_run, missing_definitions, missing_functions, missing_theorems, rows,
                                      rules, tests_at)

CITED = re.compile(r'`([^`]+)`')
NOTHING = '–'


def missing_edit(cited: str):
    if cited not in EDITS:
        yield f'no must-fail edit {cited}'


def missing_test(cited: str):
    """A file of a test, with its arguments, or `File: name` for cases that are computed by a proof."""
    name = cited.split()[0]
    if name.endswith(':'):
        yield from missing_definitions(cited)
        return
    found = tests_at(name)
    if len(found) != 1:
        yield f'{"several tests" if found else "no test"} {name}'


COLUMNS = (('definition', missing_definitions), ('code', missing_functions), ('law', missing_theorems),
           ('must-fail edits', missing_edit), ('tests', missing_test))


def wrong_cells(cells: list[str]):
    """What is wrong in the cells of a row behind its first."""
    if len(cells) != len(COLUMNS):
        yield f'{len(cells) + 1} cells'
        return
    for cell, (column, missing) in zip(cells, COLUMNS):
        if cell == NOTHING:
            continue
        if not CITED.search(cell) or CITED.sub('', cell).strip(', '):
            yield f'{column}: other text than what is cited: {CITED.sub("", cell).strip(", ") or "none"}'
        for cited in CITED.findall(cell):
            yield from missing(cited)
    if all(cell == NOTHING for cell in cells):
        yield 'an empty row'


def wrong_rows(known: list[tuple[str, str, int]]):
    """What is wrong in the tables, and in docs/RULES.md."""
    stated = [name for name, _, _ in known]
    for name, _, number in known:
        if stated.count(name) > 1:
            yield f'docs/RULES.md:{number}: {name} is stated twice'
    section_of = {name: section for name, section, _ in known}
    found = []
    for number, section, (first, *cells) in rows():
        name = first.strip('`')
        at = f'{TABLE}:{number}: {name}'
        if first != f'`{name}`' or name not in section_of:
            yield f'{at}: no such rule'
            continue
        if name in found:
            yield f'{at}: a second row'
        elif section_of[name] != section:
            yield f'{at}: stands under {section}, in docs/RULES.md under {section_of[name]}'
        found.append(name)
        yield from (f'{at}: {text}' for text in wrong_cells(cells))
    missing = [name for name in stated if name not in found]
    yield from (f'{TABLE}: {name}: no row' for name in missing)
    expected = [name for name in stated if name in found]
    for name, other in zip(found, expected):
        if not missing and len(found) == len(expected) and name != other:
            yield f'{TABLE}: {name} stands where docs/RULES.md has {other}'
            break


def tests_not_run():
    """Tests that rows cite and the gate does not run."""
    cited = {name.split()[0] for _, _, cells in rows() for name in CITED.findall(cells[-1])}
    for name in sorted(cited):
        yield from (f'{TABLE}: the gate does not run {path}' for path in tests_at(name) if not is_run(path))


def wrong_edits(known: set[str]):
    """Edits without their rule, or not in its row."""
    standing = {}
    for _, _, cells in rows():
        for cited in CITED.findall(cells[4]) if len(cells) == 6 else ():
            standing.setdefault(cited, []).append(cells[0].strip('`'))
    for name, path in EDITS.items():
        lines = path.read_text().splitlines()
        said = [line[6:] for line in lines if line.startswith('rule: ')]
        if len(said) != 1 or not lines[0].startswith('# ') or not lines[1].startswith('rule: '):
            yield f'{path}: not one rule, on its second line'
        elif said[0] not in known:
            yield f'{path}: no rule {said[0]}'
        elif standing.get(name) != said:
            yield f'{path}: {said[0]}: stands in the row of {", ".join(standing.get(name, [])) or "no rule"}'


def main() -> None:
    known = rules()
    names_known = {name for name, _, _ in known}
    wrong = [*wrong_rows(known), *tests_not_run(), *wrong_edits(names_known)]
    print('\n'.join(wrong) if wrong else f'{len(known)} rules have their rows, {len(EDITS)} edits their rules')
    sys.exit(bool(wrong))


main()
