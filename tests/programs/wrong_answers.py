#!/usr/bin/env python3
"""Puts a wrong value into the answers to a script, one of each kind in a file of its own.

    wrong_answers.py [--test] SCRIPT ANSWERS FOLDER

Of the answers of a kind the middle one gets another value. The file of the kind's name in FOLDER
gets the answers; the kind and the script's line of that call are printed. Exit status 1 if there is
no answer of a kind. The kinds:

    receipt   a receipt read from CMDR gets another sync; no empty read shows it again
    sent      another byte is sent for a command
    address   another address is taken
    received  another word is read from SDI; no empty read shows it again
    shown     an empty queue that shows a word shows 0
    none      an empty queue that shows 0 shows a word
    refusal   a refusal of another number has a value
"""

import pathlib
import sys

sys.path.insert(0, str(pathlib.Path(__file__).resolve().parents[2]))

from tests.scripts.bank import TAKING
from tests.scripts.lines import SET_UP, call_lines, split
from thymewax import Number, Register


def taking(call):
    """The offset of a read that takes from a queue."""
    letter, fields = call
    return fields[0] if letter == 'R' and fields[0] in TAKING else None


def read_once(offset):
    """Finds words of a queue that are read once: a checker would tell of the empty read behind
    another too."""
    def find(calls, answers):
        found, last = [], None
        for place, (call, (_, number)) in enumerate(zip(calls, answers)):
            if taking(call) == offset:
                if last is not None and number != Number.EMPTY:
                    found.append(last)
                last = place if number == Number.DONE else None
        return found
    return find


def sends(calls, answers):
    """Bytes that are sent for a command; those of a burst are of no word that SDO took."""
    found, is_open = [], False
    for place, ((letter, fields), (_, number)) in enumerate(zip(calls, answers)):
        if letter == SET_UP:
            is_open = False
        elif number != Number.DONE:
            continue
        elif letter in 'SF':
            is_open = letter == 'S'
        elif letter == 'W' and fields[0] == Register.ENABLE and fields[1] & 1:
            is_open = False
        elif letter == 'T' and is_open:
            found.append(place)
    return found


def addresses(calls, answers):
    return [place for place, ((letter, _), (_, number)) in enumerate(zip(calls, answers))
            if letter == 'A' and number in (Number.DONE, Number.WRONG_PARITY)]


def empty(shows):
    """Finds empty reads by whether they show a word."""
    def find(calls, answers):
        return [place for place, (call, (value, number)) in enumerate(zip(calls, answers))
                if taking(call) and number == Number.EMPTY and (value != 0) == shows]
    return find


def refusals(calls, answers):
    return [place for place, (_, number) in enumerate(answers)
            if number not in (Number.DONE, Number.EMPTY, Number.WRONG_PARITY)]


# What finds the answers of a kind, and the wrong value.
KINDS = {
    'receipt': (read_once(Register.CMDR_FIFO), lambda value: value ^ 1),
    'sent': (sends, lambda value: value ^ 1),
    'address': (addresses, lambda value: value ^ 1),
    'received': (read_once(Register.SDI_FIFO), lambda value: value ^ 1),
    'shown': (empty(True), lambda value: 0),
    'none': (empty(False), lambda value: 1),
    'refusal': (refusals, lambda value: 1),
}


def main():
    paths = [pathlib.Path(word) for word in sys.argv[1:] if word != '--test']
    if len(paths) != 3:
        sys.exit('usage: wrong_answers.py [--test] SCRIPT ANSWERS FOLDER')
    script, output, folder = paths
    lines = call_lines(script.read_bytes(), '--test' in sys.argv[1:])
    calls = [split(line) for _, line in lines]
    printed = output.read_bytes().splitlines()
    answers = [(int(line[:8], 16), int(line[9:])) for line in printed]
    for kind, (find, wrong) in KINDS.items():
        found = find(calls, answers)
        if not found:
            sys.exit('no answer of the kind %s' % kind)
        place = found[len(found) // 2]
        value, number = answers[place]
        damaged = [*printed[:place], b'%08x %02d' % (wrong(value), number), *printed[place + 1:]]
        (folder / kind).write_bytes(b''.join(line + b'\n' for line in damaged))
        print(kind, lines[place][0])


if __name__ == '__main__':
    main()
