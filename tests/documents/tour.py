#!/usr/bin/env python3
"""Runs the commands that README.md and docs/TOUR.md show, and compares what they print.

    tour.py

A command is a line of a fenced block that begins with `$ `. It runs in the repository's root, once the programs are built:
what a command says of `tools/build` before `&&` is not run. Its standard output must be what the page shows, byte for byte,
with nothing on standard error and status 0. The calls in the picture of README.md are lines that its command prints. Exit
status 0 only if all is so and each page shows as many commands as PAGES says.
"""

import difflib
import pathlib
import re
import subprocess
import sys

sys.path.insert(0, str(pathlib.Path(__file__).resolve().parents[2]))

from tests.documents.pages import ROOT, commands, fenced_blocks

# The pages, and how many commands each has at least.
PAGES = {'README.md': 1, 'docs/TOUR.md': 7}
BUILDS = re.compile(rb'tools/build [\w ]+ && ')
PICTURE = ROOT / 'docs/overview.svg'
CALL = re.compile(r'class="call[^"]*"[^>]*>([^<]*)<')
LEAST_CALLS = 3


def shown(page: str) -> list[list[bytes]]:
    """The commands of a page with their outputs."""
    lines = (ROOT / page).read_bytes().splitlines(keepends=True)
    return [pair for _, block in fenced_blocks(lines) for pair in commands(block)]


def fault(page: str, command: bytes, expected: bytes) -> list[str]:
    """What is wrong with a command, as lines to show; none if it is right."""
    done = subprocess.run(['bash', '-c', BUILDS.sub(b'', command, count=1)], cwd=ROOT, capture_output=True, check=False)
    if done.returncode or done.stderr:
        return ['status %d: %s' % (done.returncode, done.stderr.decode('latin-1'))]
    first, second = (data.decode('latin-1').split('\n') for data in (expected, done.stdout))
    return list(difflib.unified_diff(first, second, page, 'printed', lineterm=''))


def picture_faults(printed: set[str]) -> list[str]:
    """Calls of the picture that are not among the lines printed."""
    calls = CALL.findall(PICTURE.read_text())
    wrong = ['docs/overview.svg: no command of README.md prints %r' % call for call in calls if call not in printed]
    return wrong if len(calls) >= LEAST_CALLS else ['docs/overview.svg: %d calls' % len(calls)]


def main() -> None:
    if len(sys.argv) != 1:
        sys.exit(__doc__)
    wrong, count = [], 0
    for page, least in PAGES.items():
        found = shown(page)
        count += len(found)
        if len(found) < least:
            wrong.append('%s: %d commands, at least %d expected' % (page, len(found), least))
        for command, expected in found:
            if lines := fault(page, command, expected):
                wrong += ['%s: %s' % (page, command.decode().split('\n')[0])] + lines
    wrong += picture_faults({line for _, output in shown('README.md') for line in output.decode().splitlines()})
    print('\n'.join(wrong) if wrong else 'tour: %d commands, no difference' % count)
    sys.exit(bool(wrong))


main()
