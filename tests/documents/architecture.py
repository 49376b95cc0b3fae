#!/usr/bin/env python3
"""Holds crates.txt, docs/ARCHITECTURE.md and the code that pages show to the crates.

    architecture.py            says what is not as it should be
    architecture.py --write    puts the code that pages show into them anew

Every crate of crates.txt stands in a group, whose heading is a comment `# name: what its crates may know`, and on no crate of
a later group. The picture under 'Layers' in docs/ARCHITECTURE.md has every group once. Every crate begins with the comment
that says what it is for. Where the first line of a fenced block in docs/ is a comment with a path under crates/, the other
lines are a function, its contract or a definition as that file has it. Exit status 0 only if all is so.
"""

import pathlib
import re
import sys
from collections.abc import Iterator

sys.path.insert(0, str(pathlib.Path(__file__).resolve().parents[2]))

from tests.documents.pages import ROOT, fenced_blocks

HEADING = re.compile(r'# ([a-z -]+): ')
CRATE = re.compile(r'(\w+)(?: +[\w=+]+)* *:(.*)')
SHOWN = re.compile(rb'(?://|--) (crates/\S+)\n')
NAMED = re.compile(rb'(?:pub )?(?:fn )?[\w-]+\W')
PAGES = sorted((ROOT / 'docs').glob('*.md'))
LAYERS = '\n## Layers\n\n```\n'
LEAST_SHOWN = 3


def groups() -> tuple[list[str], dict[str, tuple[int, list[str]]]]:
    """The names of the groups, and of each crate the place of its group, -1 for none, and what it stands on."""
    names, crates = [], {}
    for line in (ROOT / 'crates.txt').read_text().splitlines():
        if heading := HEADING.match(line):
            names.append(heading[1])
        elif crate := CRATE.match(line):
            crates[crate[1]] = (len(names) - 1, crate[2].split())
    return names, crates


def misplaced() -> Iterator[str]:
    names, crates = groups()
    for crate, (place, beneath) in crates.items():
        if place < 0:
            yield f'crates.txt: {crate} is in no group'
        for other in beneath:
            if other in crates and crates[other][0] > place:
                yield f'crates.txt: {crate} stands on {other}, of a group above its own'
    text = (ROOT / 'docs/ARCHITECTURE.md').read_text()
    picture = text.split(LAYERS)[1].split('```')[0] if LAYERS in text else ''
    for name in names:
        if len(re.findall(rf'(?<![\w-]){name}(?![\w-])', picture)) != 1:
            yield f'docs/ARCHITECTURE.md: {name} does not stand once in the picture of layers'


def untold() -> Iterator[str]:
    for crate in groups()[1]:
        sources = [path for name in ('lib.rt', 'main.rt') if (path := ROOT / 'crates' / crate / 'src' / name).exists()]
        if not sources or not sources[0].read_text().startswith('// '):
            yield f'crates/{crate}: no first comment says what it is for'


def shown(page: pathlib.Path) -> Iterator[tuple[int, list[bytes], list[bytes]]]:
    """The code that a page shows: the number of its first line, its lines, and those that its file has."""
    for number, block in fenced_blocks(page.read_bytes().splitlines(keepends=True)):
        if len(block) > 1 and (found := SHOWN.fullmatch(block[0])):
            source = ROOT / found[1].decode()
            yield number + 1, block[1:], stands(source, block[1:]) if source.exists() else []


def stands(source: pathlib.Path, block: list[bytes]) -> list[bytes]:
    """What a file has where a block begins: to the brace that ends a function, or to what follows a contract or a definition."""
    begin = NAMED.match(block[0])[0]
    rest = source.read_bytes().splitlines(keepends=True)
    while rest and not rest[0].startswith(begin):
        rest.pop(0)
    whole = block[-1] == b'}\n'
    ends = [place for place, line in enumerate(rest) if line in ((b'}\n',) if whole else (b'{\n', b'\n'))]
    return rest[:ends[0] + whole] if ends else rest


def stale() -> Iterator[str]:
    count = 0
    for page in PAGES:
        for number, block, there in shown(page):
            count += 1
            if block != there:
                yield f'{page.relative_to(ROOT)}:{number}: not as its file has it; --write puts it there'
    if count < LEAST_SHOWN:
        yield f'docs: {count} pieces of code are shown, at least {LEAST_SHOWN} expected'


def write() -> None:
    for page in PAGES:
        lines = page.read_bytes().splitlines(keepends=True)
        for number, block, there in sorted(shown(page), reverse=True):
            if there:
                lines[number - 1:number - 1 + len(block)] = there
        page.write_bytes(b''.join(lines))


def main() -> None:
    if sys.argv[1:] == ['--write']:
        write()
    elif sys.argv[1:]:
        sys.exit(__doc__)
    wrong = [*misplaced(), *untold(), *stale()]
    names, crates = groups()
    print('\n'.join(wrong) if wrong else f'{len(crates)} crates in {len(names)} groups; code that pages show is as it is')
    sys.exit(bool(wrong))


main()
