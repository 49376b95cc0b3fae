#!/usr/bin/env python3
"""Empty reads on memory that is not as a bank left it, through the Python binding.

    empty_reads.py

Old words in the store never show. Where image or store are refused, no word does. Needs the shared
library (`python3 -m thymewax.build`). Exit status 0 only if all is as expected.
"""

import pathlib
import sys

sys.path.insert(0, str(pathlib.Path(__file__).resolve().parents[2]))

from tests.scripts.bank import MOST_CAPACITY, TAKING
from tests.shared.trial import equal, main
from thymewax import Answer, Model, Number, Register, session

OLD = 0xdeadbeef
# A receipt, a word of a read and an interrupt, all read; not one of them is 0.
LINES = (b'W 40 0', b'W 140 3', b'W 180 110e', b'I 8 5a', b'W d4 211', b'S', b'X 12', b'X 34',
         b'F 0')
WORDS = 0x200, 0x12340000, 0x105a00
NO_WORDS = 0, 0, 0


def all_read():
    """A bank with a word read from each queue."""
    model = Model.set_up()
    for line in LINES:
        equal('the bank', line, bool(model.make(session.call_of(line))), True)
    for offset, word in zip(TAKING, WORDS):
        equal('the bank', offset, model.read(offset), Answer(word, Number.DONE))
    return model


def shows(name, model, words, number=Number.EMPTY):
    """Each queue is read twice, and no word of memory changes."""
    before = model.image(), model.store()
    for offset, word in [*zip(TAKING, words)] * 2:
        equal(name, hex(offset), model.read(offset), Answer(word, number))
    equal(name, 'memory', (model.image(), model.store()), before)


def old_stores():
    """A store with old contents, at set-up and under a bank that has read its words."""
    fresh, model = Model.set_up(), all_read()
    old = [OLD] * len(fresh.store())
    dirty = Model(fresh.image(), old)
    shows('set-up on an old store', dirty, NO_WORDS)
    dirty.write(Register.ENABLE, 0).done()
    shows('release on an old store', dirty, NO_WORDS)
    shows('another store', Model(model.image(), old), WORDS)


def refused():
    """21 and 22 have no value; mended, the same bank shows its words."""
    model = all_read()
    image, store = model.image(), model.store()
    for length in (0, len(store) - 1, len(store) + 1):
        other = Model(image, (store * 2)[:length])
        shows('store of another length', other, NO_WORDS, Number.STORE_LENGTH)
    damaged = [MOST_CAPACITY + 1, *image[1:]]
    shows('damaged image', Model(damaged, store), NO_WORDS, Number.NOT_WELL_FORMED)
    # 21 goes before 22.
    shows('both', Model(damaged, store[1:]), NO_WORDS, Number.NOT_WELL_FORMED)
    shows('mended', Model(image, store), WORDS)


if __name__ == '__main__':
    main('empty reads', [old_stores, refused])
