"""What the tests of documents share: the fenced blocks of a page, and the commands that it shows."""

import pathlib
from collections.abc import Iterator

ROOT = pathlib.Path(__file__).resolve().parents[2]
FENCE, PROMPT, HERE, END = b'```', b'$ ', b"<<'END'", b'END\n'


def fenced_blocks(lines: list[bytes]) -> Iterator[tuple[int, list[bytes]]]:
    """The fenced blocks as (number of the first line, lines). One that is not closed goes to the end."""
    block = None
    for number, line in enumerate(lines, 1):
        fence = line.startswith(FENCE)
        if block is None:
            block = (number + 1, []) if fence else None
        elif fence:
            yield block
            block = None
        else:
            block[1].append(line)
    if block is not None:
        yield block


def commands(block: list[bytes]) -> list[list[bytes]]:
    """The commands of a block, each with its output. A command is a line behind a prompt, with the lines up to END where it
    takes them; what it prints are the lines up to the next."""
    found, waits = [], False
    for line in block:
        if waits:
            found[-1][0] += line
            waits = line != END
        elif line.startswith(PROMPT):
            found.append([line.removeprefix(PROMPT), b''])
            waits = HERE in line
        elif found:
            found[-1][1] += line
    return found
