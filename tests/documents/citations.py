#!/usr/bin/env python3
"""Holds what documents and comments cite to the repository.

    citations.py

From the repository's root. In README.md and docs/*.md every must-fail edit `crate/name`, function or type `crate::name`,
definition `File: name`, theorem `crate: name`, test `name.py`, path, and point of docs/DECISIONS.md is there. Every rule
that these documents, a comment in crates/ or tests/, or any other source cite by name stands in docs/RULES.md: a name with
a dot whose first part begins a rule, in documents and other sources between backticks. The tables of rules are left to
rules.py, and in docs/DESIGN-PASS.md and docs/LOOK-BACK.md, which set what went beside what came, names in backticks are
free. Prints a line for each that is not so. Exit status 0 only if there is none.
"""

import os
import pathlib
import re
import sys

sys.path.insert(0, str(pathlib.Path(__file__).resolve().parents[2]))

from tests.documents.declared import (EDITS, TABLE, missing_definitions, missing_functions, missing_theorems, plain, rows,
                                      rules)

OLD_AND_NEW = pathlib.Path('docs/DESIGN-PASS.md'), pathlib.Path('docs/LOOK-BACK.md')
DOCUMENTS = [pathlib.Path('README.md'), *sorted(pathlib.Path('docs').glob('*.md'))]
COMMENTED = {'.antt': '--', '.rt': '//', '.edit': '#', '.py': '#', '.sh': '#'}
WRITTEN = ('crates/*/specs/**/*.antt', 'crates/*/src/**/*.rt', 'crates/*/proofs/**/*.antt', 'crates/*/must-fail/*.edit',
           'tests/**/*.py', 'tests/**/*.sh')
BESIDE = ('bench/**/*.rs', 'bindings/**/*.rs', 'bindings/**/*.py', 'bindings/**/*.md', 'examples/**/*.c', 'include/*.h',
          'reference/**/*.rs', 'reference/*.md', 'tools/*')  # there a name with a dot is a rule's between backticks alone
FOLDERS = r'(?:\.ci|bench|bindings|crates|docs|examples|include|reference|tests|tools)'
PATH = re.compile(rf'(?<![\w/$.-]){FOLDERS}/[\w/.*-]*[\w*]')
MADE = ('crates/NAME', 'crates/crate')  # stand for any crate
BUILT = {'target', 'out'}
OF_KIT = ('libc::', 'os::')  # functions of its libraries
POINT = re.compile(r'(?<![\w/`.-])(?!C99)([A-Z]\d{1,2})(?![\w.-])')
POINTS = set(re.findall(r'\*\*([A-Z]\d{1,2}) ', pathlib.Path('docs/DECISIONS.md').read_text()))
RULE_NAME = re.compile(r'(?<![\w./:-])([a-z]+(?:-[a-z]+)*)\.([a-z]+(?:-[a-z]+)*)(?![\w/(:.-]\w|[(\w])')


def files() -> set[str]:
    """The names of the repository's files, without those of builds."""
    found = set()
    for _, folders, names in os.walk('.'):
        folders[:] = [folder for folder in folders if folder not in (*BUILT, '.git', '__pycache__')]
        found |= set(names)
    return found


FILES = files()
SUFFIXES = {name.rpartition('.')[2] for name in FILES}


def there(path: str) -> bool:
    return any(pathlib.Path().glob(path)) or any(pathlib.Path().glob(path + '.antt')) or not BUILT.isdisjoint(path.split('/'))


def missing(token: str):
    """What a name between backticks says that is not there."""
    if re.fullmatch(r'\w+/\w+', token):
        if token not in EDITS and not there(token):
            yield f'no must-fail edit {token}'
    elif re.fullmatch(r'\w+::(?:\w+::)*(?:\w+|\{[\w, ]+\})', token):
        yield from () if token.startswith(OF_KIT) else missing_functions(token)
    elif re.fullmatch(r'(?:\w+: )?[A-Z]\w*: [^:]+', token):
        yield from missing_definitions(token)
    elif re.fullmatch(r'\w+: [^:]+', token):
        yield from missing_theorems(token)
    elif re.fullmatch(r'\w+\.(?:py|sh|rs|antt|md)(?: --\w+)?', token) and token.split()[0] not in FILES:
        yield f'no file {token}'


def unruled(text: str, known: set[str]):
    """Names of rules in a text that docs/RULES.md has not."""
    firsts = {name.partition('.')[0] for name in known}
    for first, second in RULE_NAME.findall(text):
        if first in firsts and second not in SUFFIXES and f'{first}.{second}' not in known:
            yield f'no rule {first}.{second}'


def wrong_in_document(document: pathlib.Path, known: set[str]):
    ruled = {number for number, _, _ in rows()} if document == TABLE else ()
    for number, line in plain(document.read_text()):
        if number in ruled:
            continue
        for token in () if document in OLD_AND_NEW else re.findall(r'`([^`]+)`', line):
            yield from ((number, text) for text in missing(token))
        yield from ((number, text) for text in unruled(between_backticks(line), known))
        yield from ((number, f'no point {point}') for point in POINT.findall(line) if point not in POINTS)
        for path in PATH.findall(line):
            if not path.startswith(MADE) and not there(path):
                yield number, f'no {path}'


def between_backticks(text: str) -> str:
    return ' '.join(token for token in re.findall(r'`([^`]+)`', text) if RULE_NAME.fullmatch(token))


def wrong_in_source(path: pathlib.Path, known: set[str], commented: bool):
    """Rules that a source cites and that are none; where commented, in its comments without backticks too."""
    for number, line in enumerate(path.read_text().splitlines(), 1):
        mark = COMMENTED[path.suffix] if commented else ''
        text = line[line.index(mark):] if mark and mark in line else between_backticks(line)
        yield from ((number, wrong) for wrong in unruled(text, known))


def sources(patterns: tuple[str, ...]) -> list[pathlib.Path]:
    return sorted({path for pattern in patterns for path in pathlib.Path().glob(pattern)
                   if path.is_file() and BUILT.isdisjoint(path.parts)})


def main() -> None:
    known = {name for name, _, _ in rules()}
    wrong = [f'{path}:{number}: {text}' for path in DOCUMENTS for number, text in wrong_in_document(path, known)]
    read = [(path, True) for path in sources(WRITTEN)] + [(path, False) for path in sources(BESIDE)]
    wrong += [f'{path}:{number}: {text}' for path, commented in read
              for number, text in wrong_in_source(path, known, commented)]
    print('\n'.join(wrong) if wrong else f'{len(DOCUMENTS)} documents and {len(read)} sources: what they cite is there')
    sys.exit(bool(wrong))


main()
