#!/usr/bin/env python3
"""What the gate spent: a table of crates with the seconds until each was proved, and how many must-fail edits each has.

    rt ci 2>&1 | spent.py LOG TABLE       passes on what rt ci prints and keeps it as LOG; then the table, if it has all crates
    spent.py --write DOCUMENT TABLE       puts a table into a document, in place of the one that it has
    spent.py --check DOCUMENT             the document's table has every crate of crates.txt, with its number of edits

rt ci tells no times. The seconds of a crate are those from when all crates below it were proved to when it was, so what it
waited for a processor is in them. rt keeps on a machine what it has proved there: a table is made only by a run that
proved every crate; another one says how many it proved. Exit status 1 where a check fails.
"""

import os
import pathlib
import re
import sys
import time

HEAD = '| crate | proved in, s | edits |\n|---|---|---|\n'
CRATE = re.compile(r'^(\w+)(?: +[\w=+]+)* *:(.*)', re.M)
PROVED = re.compile(r'rt: (\w+) proved$')
ENDED = re.compile(r'\d+ passed, \d+ failed')
TABLE = re.compile(re.escape(HEAD) + r'(?:\|.*\|\n)+(?:\n.*\n)?')


def crates() -> dict[str, list[str]]:
    """Every crate of crates.txt, with what it stands on."""
    return {name: below.split() for name, below in CRATE.findall(pathlib.Path('crates.txt').read_text())}


def edits(crate: str) -> int:
    return len(list(pathlib.Path('crates', crate, 'must-fail').glob('*.edit')))


def spent(lines: list[tuple[float, str]], began: float) -> str | None:
    """The table of what rt ci printed, each line with the time at which it came; none where a crate was not proved."""
    below, ended, proved = crates(), began, {}
    for at, line in lines:
        if found := PROVED.match(line):
            proved[found[1]] = at
        elif ENDED.match(line):
            ended = at
    if proved.keys() != below.keys():
        return None
    rows = ''
    for crate, at in proved.items():
        seconds = at - max([began, *(proved[other] for other in below[crate] if other in proved)])
        rows += f'| `{crate}` | {seconds:.0f} | {edits(crate)} |\n'
    count = sum(map(edits, proved))
    last = max(proved.values())
    return (HEAD + rows + f'\n{len(proved)} crates were proved in {minutes(last - began)} and the {count} edits tried in '
            f'{minutes(ended - began)}, tests and programs among it, on {os.cpu_count()} processors.\n')


def minutes(seconds: float) -> str:
    return f'{int(seconds) // 60} min {int(seconds) % 60} s'


def pass_on(log: pathlib.Path, table: pathlib.Path) -> None:
    began = time.time()
    lines = []
    for path in (log, table):
        path.parent.mkdir(parents=True, exist_ok=True)
    with log.open('w') as kept:
        for line in sys.stdin:
            lines.append((time.time(), line))
            sys.stdout.write(line)
            kept.write(line)
    if text := spent(lines, began):
        print(text, end='')
        table.write_text(text)
    else:
        count = sum(bool(PROVED.match(line)) for _, line in lines)
        print(f'spent.py: {count} of {len(crates())} crates were proved in this run, so there is no table of times')


def write(document: pathlib.Path, table: pathlib.Path) -> None:
    text = document.read_text()
    if not TABLE.search(text):
        sys.exit(f'spent.py: {document} has no table of costs')
    document.write_text(TABLE.sub(lambda _: table.read_text(), text, count=1))


def check(document: pathlib.Path) -> None:
    found = TABLE.search(document.read_text())
    rows = re.findall(r'\| `(\w+)` \| (?:\d+|–) \| (\d+) \|', found[0]) if found else []
    told = {crate: int(count) for crate, count in rows}
    there = {crate: edits(crate) for crate in crates()}
    if told != there:
        wrong = sorted(crate for crate in {*told, *there} if told.get(crate) != there.get(crate))
        sys.exit(f'spent.py: the table of costs in {document} is not of these crates and edits: {", ".join(wrong)}')


def main() -> None:
    match sys.argv[1:]:
        case ['--write', document, table]:
            write(pathlib.Path(document), pathlib.Path(table))
        case ['--check', document]:
            check(pathlib.Path(document))
        case [log, table] if not log.startswith('-'):
            pass_on(pathlib.Path(log), pathlib.Path(table))
        case _:
            sys.exit(__doc__)


main()
