#!/usr/bin/env python3
"""Holds docs/TRUST.md to what the checks say that each program assumes.

    trust.py LOG        holds the table to what rt ci printed, which .ci/run keeps
    trust.py --all      to what rt check names, which proves again what it has not kept of the crates below

From the repository's root. A program or an archive is a crate with a main.rt or an exported function; each has a row with the
functions of C whose contracts its check names as assumed. rt ci prints, of each library, the first three of them and how many
there are, and only of a crate that it proves in that run; a crate that is kept from an earlier run was held to its row there.
Prints a line for each that is not so. Exit status 0 only if there is none.
"""

import pathlib
import re
import subprocess
import sys

CRATES = pathlib.Path('crates')
FIRST = 3
# Of each library: the functions that are named, and how many there are.
Assumed = dict[str, tuple[list[str], int]]


def is_whole(crate: pathlib.Path) -> bool:
    """A program, or what an archive is made of."""
    source = crate / 'src'
    return (source / 'main.rt').exists() or any('extern "C" fn' in path.read_text() for path in source.glob('*.rt'))


def printed(name: str, log: str) -> Assumed | None:
    """What a log of rt ci says of a crate; none where it is kept."""
    if re.search(rf'^rt: {name} is kept: ', log, re.M):
        return None
    found = re.search(rf'^== {name}\n(.*?)^rt: {name} proved$', log, re.M | re.S)
    if not found or not (counted := re.search(r'^logic=proved (.*)', found[1], re.M)):
        sys.exit(f'{name} is not proved')
    axioms = re.findall(r'^axioms (\w+): (.*?)(?:, \.\.\.)? \((\d+) of the \d+ declared\)$', found[1], re.M)
    assumed = {library: (functions.split(', '), int(count)) for library, functions, count in axioms}
    total = re.search(r'\baxioms=(\d+)', counted[1])
    if sum(count for _, count in assumed.values()) != (int(total[1]) if total else 0):
        sys.exit(f'{name}: {assumed} are named, {counted[1]} counted')
    return assumed


def listed(name: str) -> Assumed:
    """What rt check names of a crate."""
    done = subprocess.run(['rt', 'check', '--list-axioms'], cwd=CRATES / name, capture_output=True, text=True, check=False)
    blocks = re.findall(r'^axioms (\w+): (\d+|none) reached .*\n((?:  .*\n)*)', done.stdout, re.M)
    if done.returncode or not blocks:
        sys.exit(f'{name}: rt check: status {done.returncode}: {done.stdout[-300:]}{done.stderr[-300:]}')
    assumed = {library: re.findall(r'^  (\S+) +reached$', text, re.M) for library, _, text in blocks}
    if any(str(len(assumed[library]) or 'none') != count for library, count, _ in blocks):
        sys.exit(f'{name}: {assumed} are named, {[count for _, count, _ in blocks]} counted')
    return {library: (functions, len(functions)) for library, functions in assumed.items() if functions}


def told(functions: list[str], short: bool) -> Assumed:
    """What a check would say of the functions of a row."""
    by_library: dict[str, list[str]] = {}
    for function in functions:
        by_library.setdefault(function.partition('::')[0], []).append(function)
    return {library: (names[:FIRST] if short else names, len(names)) for library, names in by_library.items()}


def main() -> None:
    if len(sys.argv) != 2:
        sys.exit(__doc__)
    short = sys.argv[1] != '--all'
    log = pathlib.Path(sys.argv[1]).read_text() if short else ''
    rows = re.findall(r'^\| `(\w+)` \| ([^|]*) \|$', pathlib.Path('docs/TRUST.md').read_text(), re.M)
    table = {name: re.findall(r'`([\w:]+)`', cell) for name, cell in rows}
    whole = [crate.name for crate in sorted(CRATES.iterdir()) if is_whole(crate)]
    said = {name: printed(name, log) if short else listed(name) for name in whole}
    wrong = [f'docs/TRUST.md: {name}: {table.get(name)}, its check says {assumed}'
             for name, assumed in said.items() if name not in table or assumed is not None and told(table[name], short) != assumed]
    wrong += [f'docs/TRUST.md: {name} is neither a program nor an archive' for name in table if name not in said]
    kept = sum(assumed is None for assumed in said.values())
    print('\n'.join(wrong) if wrong else f'{len(said)} programs and archives assume what docs/TRUST.md says; {kept} of them are kept from earlier runs')
    sys.exit(bool(wrong))


main()
