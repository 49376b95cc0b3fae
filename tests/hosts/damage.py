#!/usr/bin/env python3
"""Damaged images, and memory of other lengths, through the Python binding and its library.

    damage.py

Needs the shared library (`python3 -m thymewax.build`). Exit status 0 only if all is as expected.
"""

import pathlib
import sys

sys.path.insert(0, str(pathlib.Path(__file__).resolve().parents[2]))

from tests.hosts.image_words import (
    CAPACITY, COMMANDS, DATA, HEAD, INTERRUPT_SYNC, LARGEST, LATEST, LENGTH, LEVEL, MOST, MOVED, NAMES,
    PART, PENDING_5, PENDING_6, PENDING_7, PHASE, PLACE, QUEUES, RECEIPT_SYNC, SCRATCH, WATERMARK)
from tests.hosts.lent import kept, row_of, words
from tests.scripts.bank import BURST_LENGTH, CMD, LONGEST, MOST_CAPACITY, SDI
from tests.scripts.lines import lent
from tests.scripts.source import Source
from tests.shared.trial import equal, generated, main
from thymewax import Answer, Call, Model, Number, Register, SetUp, section, session, trace
from thymewax.calls import DIGITS
from thymewax.image import IMAGE_WORDS, TABLES, WORDS, Phase
from thymewax.library import VERSION, load

CALLS = [Call(letter) for letter in DIGITS] + [Call('G'), Call('Q'), Call('X', 0, 256)]
TRACE = trace.join(trace.records([Call('R', 0), Call('R', 4)]))
# What a replay tells where it did no record.
NO_ANSWER = Answer(0, Number.DONE)
# The numbers that no call of a script has.
BEFORE_ALL = (Number.NOT_WELL_FORMED, Number.STORE_LENGTH, Number.WRONG_RECORD)
# Words of an image, and the least number that no bank has there.
TOO_LARGE = {
    **{queue + CAPACITY: MOST_CAPACITY + 1 for queue in QUEUES},
    **{place: most + 1 for place, most in LARGEST.items()},
    PLACE: BURST_LENGTH + 2, LENGTH: LONGEST + 1,
}
# Words that may hold any number, those last read where the bank is released.
FREE = {SCRATCH, *LATEST.values(), *COMMANDS, *DATA}
# What a library of version 1 had as an image.
OLD_IMAGE_WORDS = 40
RANDOM_DAMAGES = 20000


def state(model):
    return list(model.image()), model.store(), model.output()


def released():
    """A bank in which something waits in each queue and a read is open."""
    model = Model.set_up(cmd=3, cmdr=2, sdo=3, sdi=2, ibi=1, cmdr_mark=1, sdi_mark=1, ibi_mark=1)
    for line in (b'W 40 0', b'W 140 3', b'W 180 110e', b'I 8 5a', b'W dc 1', b'W d4 11', b'S',
                 b'F 0', b'W d4 611', b'W d4 10', b'W d4 10', b'S', b'X 1', b'X 2', b'X 3', b'X 4',
                 b'X 5'):
        equal('the bank to damage', line, bool(model.make(session.call_of(line))), True)
    return model


def refuses(name, image, store):
    """Every call, and every record of a replay, finds the bank not well formed; no word
    changes."""
    model = Model(image, store, [5, 6])
    before = state(model)
    for call in CALLS:
        equal('damaged images', '%s, %s' % (name, call), model.make(call),
              Answer(0, Number.NOT_WELL_FORMED))
    equal('damaged images', name, model.replay(TRACE),
          (Number.DONE, 2, (0, Number.NOT_WELL_FORMED)))
    equal('damaged images', name, model.replay(TRACE, limit=0), (Number.DONE, 0, NO_ANSWER))
    equal('damaged images', name, model.replay(TRACE[:-1]), (Number.WRONG_TABLE, 0, NO_ANSWER))
    equal('damaged images', name, state(model), before)


def with_word(image, place, word):
    return [*image[:place], word, *image[place + 1:]]


def damaged():
    model = released()
    image, store = model.image(), model.store()
    fresh = Model.set_up().image()
    for place, least in TOO_LARGE.items():
        for word in {least, least + 1, 0x100 + least, 0x10000 + image[place], MOST}:
            refuses('%s is %x' % (NAMES[place], word), with_word(image, place, word), store)
    for ring, queue in zip(image.rings, QUEUES):
        for field, word in ((CAPACITY, 0), (WATERMARK, ring.capacity + 1), (HEAD, ring.capacity),
                            (LEVEL, ring.capacity + 1)):
            refuses(NAMES[queue + field], with_word(image, queue + field, word), store)
    for queue in (QUEUES[CMD], QUEUES[SDI]):
        small = with_word(image, queue + CAPACITY, 1)
        refuses('least capacity', with_word(small, queue + LEVEL, 0), store)
    for place in (QUEUES[CMD] + HEAD, QUEUES[CMD] + LEVEL, RECEIPT_SYNC, INTERRUPT_SYNC, PENDING_5,
                  PENDING_6, PENDING_7, *LATEST.values(), PHASE):
        for word in (1, MOST):
            refuses('%s is %x in reset' % (NAMES[place], word), with_word(fresh, place, word), [0] * 20)
    for place, word in ((PLACE, 1), (PHASE, Phase.IDLE), (PHASE, Phase.ASSIGNING), (LENGTH, 4),
                        (MOVED, 7), (MOVED, 0x100), (PART, MOST)):
        refuses('open transfer, %s is %x' % (NAMES[place], word), with_word(image, place, word),
                store)
    for length in (0, 1, WORDS - 1, WORDS + 1, 2 * WORDS):
        refuses('%d words' % length, (list(image) * 2)[:length], store)
    old = [word for place, word in enumerate(image) if place not in LATEST.values()]
    equal('damaged images', 'words of an old one', len(old) - TABLES, OLD_IMAGE_WORDS)
    refuses('an image of version 1', old, store)


def any_word_last_read():
    """Released, the words last read may be any: an empty queue shows its own."""
    model = Model.set_up()
    model.write(Register.ENABLE, 0)
    for offset, place in LATEST.items():
        for word in (0, 1, 0x80000000, MOST):
            other = Model(with_word(model.image(), place, word), model.store())
            before = state(other)
            for shown in LATEST:
                equal('any word last read', (offset, word), other.read(shown),
                      Answer(word if shown == offset else 0, Number.EMPTY))
            equal('any word last read', (offset, word), state(other), before)


def damaged_at_random():
    """Any words: a call finds them not well formed, or is answered as any other; a refused one
    changes nothing."""
    source, not_formed = Source(1), 0
    model = released()
    image, store = model.image(), model.store()
    for _ in range(RANDOM_DAMAGES):
        words = list(image)
        for _ in range(1 + source.below(3)):
            place = source.below(WORDS)
            words[place] = source.pick([0, 1, 2, 3, words[place] + 1, words[place] ^ 0x80000000,
                                        source.word(), source.below(256)])
        other = Model(words, store, [7] * 4)
        before, call = state(other), source.pick(CALLS)
        answer = other.make(call)
        not_formed += answer.number == Number.NOT_WELL_FORMED
        equal('random damage', (call, words), answer.number in list(Number), True)
        if answer.refused:
            equal('random damage', (call, words), (answer.value, state(other)), (0, before))
        free = all(words[place] == image[place] for place in range(WORDS) if place not in FREE)
        if free:
            equal('random damage', 'free words', answer.number != Number.NOT_WELL_FORMED, True)
    equal('random damage', 'some not well formed, some so',
          min(not_formed, RANDOM_DAMAGES - not_formed) > RANDOM_DAMAGES // 20, True)


def other_stores():
    """A store of another length is told of; in a replay by the answer of each record."""
    model = released()
    image, store = model.image(), model.store()
    for length in (0, 1, len(store) - 1, len(store) + 1, 2 * len(store)):
        other = Model(image, (store * 2)[:length])
        before = state(other)
        for call in CALLS:
            wanted = (Number.STORE_LENGTH if call.right or call.letter == 'G'
                      else Number.WRONG_RECORD)
            equal('other stores', '%d words, %s' % (length, call), other.make(call),
                  Answer(0, wanted))
        equal('other stores', length, other.replay(TRACE),
              (Number.DONE, 2, (0, Number.STORE_LENGTH)))
        equal('other stores', length, state(other), before)


def counted(length):
    """A row whose image has some length, each word another as far as a byte has them."""
    return [number % 256 for number in range(length + TABLES)]


def raw_set_up():
    """Images of other lengths and numbers out of range leave image and tables as they were; a
    set-up that is done writes all of them."""
    library, numbers = load(), list(SetUp())
    equal('raw set-up', 'version', library.thymewax_version(), VERSION)
    equal('raw set-up', 'image words', library.thymewax_image_words(), IMAGE_WORDS)
    for length in (0, 1, OLD_IMAGE_WORDS, IMAGE_WORDS - 1, IMAGE_WORDS, IMAGE_WORDS + 1, WORDS):
        pieces = kept(counted(length))
        number = library.thymewax_set_up(*pieces, *numbers)
        right = length == IMAGE_WORDS
        equal('raw set-up', '%d words' % length, number,
              Number.DONE if right else Number.NOT_WELL_FORMED)
        equal('raw set-up', '%d words' % length, row_of(pieces),
              list(Model.set_up().image()) if right else counted(length))
    for place in range(len(numbers)):
        pieces = kept(counted(IMAGE_WORDS))
        given = [*numbers[:place], 2000, *numbers[place + 1:]]
        equal('raw set-up', given, library.thymewax_set_up(*pieces, *given),
              Number.SET_UP_OUT_OF_RANGE)
        equal('raw set-up', given, row_of(pieces), counted(IMAGE_WORDS))
    # The length goes before the numbers.
    equal('raw set-up', 'both',
          library.thymewax_set_up(*kept(counted(IMAGE_WORDS - 1)), *[0] * len(numbers)),
          Number.NOT_WELL_FORMED)


def raw_lengths():
    """`told` and `place` may be shorter or longer than what there is to tell."""
    library = load()
    model = Model.set_up()
    for length in range(6):
        store, told = words(*model.store()), words(*[9] * length)
        number = library.thymewax_replay(*kept(model.image()), store, len(store), TRACE, len(TRACE),
                                         0, 1, told, length)
        equal('raw lengths', 'told of %d' % length, (number, list(told)),
              (Number.DONE, ([1, 0x100, Number.DONE] + [9] * 3)[:length]))
        place = words(*[9] * length)
        number = library.thymewax_section(TRACE, len(TRACE), 0, place, length)
        equal('raw lengths', 'place of %d' % length, (number, list(place)),
              (Number.DONE, ([trace.header_bytes(1), 2 * trace.RECORD.size] + [9] * 4)[:length]))
    # A part of a file is a file of its own.
    for length in range(len(TRACE) + 1):
        number = library.thymewax_section(TRACE, length, 0, words(0, 0), 2)
        equal('raw lengths', '%d bytes' % length, number,
              Number.WRONG_MARK if length < len(trace.MARK)
              else Number.WRONG_TABLE if length < len(TRACE) else Number.DONE)
    empty, store = words(), words(*model.store())
    equal('raw lengths', 'no output', library.thymewax_step(
        *kept(model.image()), store, len(store), empty, 0, ord('R'), Register.VERSION, 0, 0), 0x100)


def raw_refusals():
    """A refusal writes no lent word; the binding then gives 0, 0 and an empty section."""
    library = load()
    good = released()
    too_large = with_word(good.image(), QUEUES[CMD] + CAPACITY, MOST_CAPACITY + 1)
    for image in (good.image(), too_large, good.image()[1:]):
        for file, asked, number in (
                (b'', 0, Number.WRONG_MARK), (TRACE[:3], 0, Number.WRONG_MARK),
                (TRACE[:-1], 0, Number.WRONG_TABLE), (TRACE, 1, Number.NO_SUCH_SECTION)):
            pieces, store, told, place = (kept(image), words(*good.store()), words(9, 9, 9),
                                          words(9, 9))
            equal('raw refusals', number, library.thymewax_replay(
                *pieces, store, len(store), file, len(file), asked, 9, told, 3), number)
            equal('raw refusals', number,
                  library.thymewax_section(file, len(file), asked, place, 2), number)
            equal('raw refusals', number, (row_of(pieces), tuple(store), list(told), list(place)),
                  (list(image), good.store(), [9, 9, 9], [9, 9]))
            equal('raw refusals', number, Model(image, good.store()).replay(file, asked),
                  (number, 0, NO_ANSWER))
            equal('raw refusals', number, section(file, asked), (number, 0, 0))


def refused_in_scripts():
    """In a script with triggers and outputs of any length no refused call changes a word."""
    model = Model.set_up()
    for line in session.lines(generated(3, 20000, '--test')):
        output = lent(line)
        if output is not None:
            model.lend(output)
            continue
        call = Call('G') if line == b'G' else session.call_of(line)
        if call is None:
            continue
        before = state(model)
        answer = model.make(call)
        equal('scripts', call, answer.number in BEFORE_ALL, False)
        if answer.refused:
            value = before[0][LATEST[call.offset]] if answer.number == Number.EMPTY else 0
            equal('scripts', call, (answer.value, state(model)), (value, before))


if __name__ == '__main__':
    main('damage', [damaged, any_word_last_read, damaged_at_random, other_stores, raw_set_up, raw_lengths,
                    raw_refusals, refused_in_scripts])
