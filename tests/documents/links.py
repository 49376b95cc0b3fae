#!/usr/bin/env python3
"""Holds the links of the documents to the repository.

    links.py

Of every Markdown file in the repository, each link and picture to a file or folder leads to one of the repository, not to
one that a build makes, and each anchor to a heading of the page that it names. Links with a scheme, as https, are not
followed. Prints a line for each that is not so. Exit status 0 only if there is none.
"""

import pathlib
import re
import sys

sys.path.insert(0, str(pathlib.Path(__file__).resolve().parents[2]))

from tests.documents.pages import ROOT, fenced_blocks

LINK = re.compile(r'\[[^]]*\]\(([^()\s]+)\)')
HEADING = re.compile(r'^#{1,6} +(.*?) *#*$')
SCHEME = re.compile(r'[a-z][a-z0-9+.-]*:')
LEAST = 40


def prose(path: pathlib.Path) -> list[str]:
    """The lines of a page, empty where it has a fenced block."""
    raw = path.read_bytes().splitlines(keepends=True)
    lines = [line.decode().rstrip('\n') for line in raw]
    for first, block in fenced_blocks(raw):
        lines[first - 2:first + len(block)] = [''] * (len(block) + 2)
    return lines


def anchors(path: pathlib.Path) -> set[str]:
    """The anchors of a page's headings: small letters, digits, hyphens for blanks; a second one of a name has a number."""
    found: dict[str, int] = {}
    for line in prose(path):
        if heading := HEADING.match(line):
            name = re.sub(r'[^\w\- ]', '', heading[1].lower()).replace(' ', '-')
            found[name] = found.get(name, -1) + 1
    return {name if n == 0 else f'{name}-{n}' for name, most in found.items() for n in range(most + 1)}


def made(path: pathlib.Path) -> bool:
    """Whether a path of the repository is one that builds or git make."""
    return any(part in ('target', 'out', '.git') for part in path.relative_to(ROOT).parts)


def fault(page: pathlib.Path, link: str) -> str | None:
    """What is wrong with a link of a page."""
    name, _, anchor = link.partition('#')
    target = (page.parent / name).resolve() if name else page
    if name.startswith('/') or not target.is_relative_to(ROOT):
        return 'leads out of the repository'
    if not target.exists() or made(target):
        return 'not in the repository'
    if anchor and (target.suffix != '.md' or anchor not in anchors(target)):
        return 'no such heading'
    return None


def main() -> None:
    pages = sorted(path for path in ROOT.rglob('*.md') if not made(path))
    wrong, count = [], 0
    for page in pages:
        text = re.sub(r'`[^`\n]*`', lambda code: '`' * len(code[0]), '\n'.join(prose(page)))
        for found in LINK.finditer(text):
            if SCHEME.match(found[1]):
                continue
            count += 1
            if said := fault(page, found[1]):
                wrong.append(f'{page.relative_to(ROOT)}:{text.count(chr(10), 0, found.start()) + 1}: {found[1]}: {said}')
    if count < LEAST:
        wrong.append(f'{count} links, at least {LEAST} expected')
    print('\n'.join(wrong) if wrong else f'{len(pages)} documents: {count} links lead somewhere')
    sys.exit(bool(wrong))


main()
