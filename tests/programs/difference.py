#!/usr/bin/env python3
"""Shows the first line in which two outputs for one script differ.

    difference.py [--test] SCRIPT OUTPUT OTHER

Prints the calls up to that line with both answers. Exit status 1 if the
outputs differ, 0 if not.
"""

import pathlib
import sys

sys.path.insert(0, str(pathlib.Path(__file__).resolve().parents[2]))

from tests.scripts.lines import call_lines

SHOWN_BEFORE = 8


def first_difference(first, second):
    """The place of the first line that differs; None if there is none."""
    for place, (one, other) in enumerate(zip(first, second)):
        if one != other:
            return place
    if len(first) != len(second):
        return min(len(first), len(second))
    return None


def shown(lines, place):
    return lines[place].decode('latin-1') if place < len(lines) and lines[place] else '(end)'


def show(calls, first, second, place):
    print('line     call                       output       other')
    for at in range(max(0, place - SHOWN_BEFORE), place + 1):
        number, call = calls[at] if at < len(calls) else ('end', b'')
        print('%-8s %-26s %-12s %s' % (number, call.decode(), shown(first, at), shown(second, at)))


def main():
    paths = [pathlib.Path(word) for word in sys.argv[1:] if word != '--test']
    if len(paths) != 3:
        sys.exit('usage: difference.py [--test] SCRIPT OUTPUT OTHER')
    script, first, second = (path.read_bytes() for path in paths)
    first, second = first.split(b'\n'), second.split(b'\n')
    place = first_difference(first, second)
    if place is None:
        sys.exit(0)
    show(call_lines(script, '--test' in sys.argv[1:]), first, second, place)
    sys.exit(1)


if __name__ == '__main__':
    main()
