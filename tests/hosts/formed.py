#!/usr/bin/env python3
"""Whether a bank is well formed: what the archive says against what the second program says.

    formed.py REFERENCE

REFERENCE is the second program; `reference formed` judges images by a statement from the papers
alone. Scripts of calls lead models to images of all kinds, which are sound; then words of them are
damaged: each by itself at its edges, those together that a clause joins, and two or three at
random. To the archive an image is not well formed exactly where a read of VERSION is answered 21.
Needs the shared library (`python3 -m thymewax.build`). Prints each difference. Exit status 0 only
if there is none, every kind of image was met, and every field was seen each way that it can be.
"""

import pathlib
import sys
from collections import Counter

sys.path.insert(0, str(pathlib.Path(__file__).resolve().parents[2]))

from tests.hosts.formed_damages import KINDS, single
from tests.hosts.formed_images import (SEEDS, SET_UPS, WANTED, filled, in_bursts, opened, scripted,
                                       traits)
from tests.hosts.image_words import (CAPACITY, COMMANDS, ENABLE, FIELDS, FREE, ID, MOST, NAMES,
                                      OPS, PLACE, REFERENCE_ORDER, TRANSFER)
from tests.hosts.lent import kept, put, row_of, words
from tests.shared.trial import TRIED, Wrong, equal, main, run
from thymewax import Number, Register
from thymewax.image import WORDS
from thymewax.library import load

MOST_STORE = 5 * 1024
# The archive's answers to a read of VERSION: the value in the low half, the number in the high.
WELL_FORMED, NOT_WELL_FORMED = 0x100, Number.NOT_WELL_FORMED << 32


def chosen(reference):
    """Images that show between them every trait that is met. All images of the scripts are sound
    to the second program; to the archive they are, as it goes on from them."""
    met, images = set(), []
    for walk in (*map(filled, SET_UPS), opened(), in_bursts(), *map(scripted, SEEDS)):
        texts = []
        for image in walk:
            texts.append(line_of(list(map('{:x}'.format, image))))
            new = set(traits(image)) - met
            if new:
                met |= new
                images.append(image)
        for text, verdict in zip(texts, judged(reference, texts)):
            equal('sound images', text, verdict, True)
    missing = WANTED - met
    equal('kinds of images', 'not met: %s' % sorted(map(str, missing)), len(missing), 0)
    TRIED['kinds of images'] = len(met)
    return images


def line_of(digits):
    """The line of an image to the second program."""
    return ' '.join([digits[place] for place in REFERENCE_ORDER])


def judged(reference, texts):
    """Whether each image is well formed, by the second program."""
    status, output, errors = run([reference, 'formed'], '\n'.join(texts).encode())
    verdicts = output.split()
    if status or errors or len(verdicts) != len(texts) or not {*verdicts} <= {b'0', b'1'}:
        raise Wrong('%s formed: status %d, %d lines for %d images: %s' % (
            reference, status, len(verdicts), len(texts), errors.decode(errors='replace')))
    return [verdict == b'1' for verdict in verdicts]


def answered(image, damages):
    """The archive's answer for each damage, and the text of each image. The store has the length
    that the capacities ask for, where any bank has such a one."""
    step, pieces, store = load().thymewax_step, kept(image), words(*[0] * MOST_STORE)
    sound = list(map('{:x}'.format, image))
    answers, texts = [], []
    for damage in damages:
        text = sound.copy()
        for place, number in damage:
            put(pieces, place, number)
            text[place] = '%x' % number
        length = min(sum(pieces[0][CAPACITY:ID:4]), MOST_STORE)
        answers.append(step(*pieces, store, length, None, 0, ord('R'), Register.VERSION, 0, 0))
        texts.append(line_of(text))
        for place, _ in damage:
            put(pieces, place, image[place])
    if tuple(row_of(pieces)) != image:
        raise Wrong('a read of VERSION changed an image')
    return answers, texts


def difference(image, damage, answer, verdict):
    """A line: the words changed, the others that matter, both answers."""
    changed = {place: number for place, number in damage if number != image[place]}
    now = [changed.get(place, word) for place, word in enumerate(image)]
    matter = {ENABLE, OPS, PLACE, *TRANSFER}
    matter.update(place - place % 4 + number for place in changed if place < ID
                  for number in range(4))
    matter.update(COMMANDS[:now[OPS] >> 1 & 0xf] if now[PLACE] else ())
    return '%s; with %s: archive: %s, reference: %s' % (
        ', '.join('%s %x -> %x' % (NAMES[place], image[place], number)
                  for place, number in changed.items()),
        ', '.join('%s %x' % (NAMES[place], now[place])
                  for place in sorted(matter - set(changed))),
        'not well formed' if answer == NOT_WELL_FORMED else 'well formed (value %x, number %d)' % (
            answer & MOST, answer >> 32),
        'well formed' if verdict else 'not well formed')


def compare(reference, image, damages):
    """Holds the one to the other: the second program's verdicts, and a line for each difference."""
    answers, texts = answered(image, damages)
    verdicts = judged(reference, texts)
    return verdicts, [
        difference(image, damage, answer, verdict)
        for damage, answer, verdict in zip(damages, answers, verdicts)
        if answer != (WELL_FORMED if verdict else NOT_WELL_FORMED)]


def damaged(reference):
    """All damages. Those of one word tell which fields were seen how."""
    fields, places, total, differences = Counter(), set(), Counter(), 0
    for turn, image in enumerate(chosen(reference)):
        TRIED['images damaged'] += 1
        for kind, damage in KINDS.items():
            damages = list(damage(image, turn))
            verdicts, lines = compare(reference, image, damages)
            for line in lines:
                print('formed: %s: %s' % (kind, line))
            differences += len(lines)
            TRIED[kind] += len(damages)
            total.update(verdicts)
            if damage == single:
                for ((place, _),), verdict in zip(damages, verdicts):
                    fields[FIELDS[place], verdict] += 1
                    places.add(place)
    if differences:
        raise Wrong('%d differences in %d images' % (differences, sum(total.values())))
    TRIED.update({'well formed': total[True], 'not well formed': total[False]})
    for place in range(WORDS):
        equal('words', '%s: damaged' % NAMES[place], place in places, True)
    for field in dict.fromkeys(FIELDS):
        left, broken = fields[field, True], fields[field, False]
        equal('fields', '%s: %d times left well formed, %d times not; each seen' % (
            field, left, broken), (left > 0, broken > 0), (True, field not in FREE))
    TRIED['least often a field one way'] = min(fields.values())


if __name__ == '__main__':
    if len(sys.argv) != 2:
        sys.exit('usage: formed.py REFERENCE')
    main('formed', [damaged], sys.argv[1])
