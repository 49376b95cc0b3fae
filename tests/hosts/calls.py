#!/usr/bin/env python3
"""The calls of the Python binding: what they answer, and which arguments they take.

    calls.py

Needs the shared library (`python3 -m thymewax.build`). Exit status 0 only if all is as expected.
"""

import copy
import pathlib
import sys
import threading

sys.path.insert(0, str(pathlib.Path(__file__).resolve().parents[2]))

from tests.shared.trial import equal, generated, main, raises
from thymewax import (OFFLOAD_CMD, OFFLOAD_SDO, Answer, Command, Device, Image, Irq, Model, Number,
                      Ops, Receipt, Refused, Register, SetUp, section, sections, session)
from thymewax.calls import DIGITS

LETTERS = [*DIGITS, 'G']
WORD = 0xffffffff
# The worked session of paper 01.
WORKED = b'''W 0040 00000000    00000000 00
W 0180 00001102    00000000 00
W 00dc a5c30000    00000000 00
W 00d4 00000210    00000000 00
S                  00000210 00
T                  000000a5 00
T                  000000c3 00
F 0                00000200 00
R 00d8             00000200 00
R 00d8             00000200 03
'''
# A number of each kind of set-up that is out of range, by name.
OUT_OF_RANGE = [
    *((name, number) for name in ('cmd', 'sdi') for number in (0, 1, 1025, WORD)),
    *((name, number) for name in ('cmdr', 'sdo', 'ibi') for number in (0, 1025, WORD)),
    *((name, number) for name in SetUp._fields[5:10] for number in (5, WORD)),
    ('id', 256), ('id', WORD),
]
# The registers whose reads take a word, and their queues.
TAKES = {Register.CMDR_FIFO: 'cmdr', Register.SDI_FIFO: 'sdi', Register.IBI_FIFO: 'ibi'}
# The watermarks, in queue order.
WATERMARKS = [one for one in Register if one.name.endswith('_WATERMARK')]
THREADS, WRITES = 16, 200


def memory(model):
    return model.image(), model.store(), model.output()


def worked_session():
    model = Model.set_up()
    for line in WORKED.splitlines():
        call = session.call_of(line[:19].rstrip())
        equal('worked session', line, str(model.make(call)), line[19:].decode())


def every_call():
    """Each call by its method, with its value."""
    model = Model.set_up()
    for name, got, wanted in (
            ('write', model.write(Register.ENABLE, 0), 0),
            ('attach', model.write(Register.DEV_CHAR, Device(8, True, True, True).word), 0),
            ('listen', model.write(Register.IBI_CONFIG, 3), 0),
            ('interrupt', model.interrupt(8, 0x5a), 0x00105a00),
            ('read', model.read(Register.IBI_FIFO), 0x00105a00),
            ('payload', model.write(Register.SDO_FIFO, 0xa5c30000), 0),
            ('command', model.write(Register.CMD_FIFO, Command(8, 2).word), 0),
            ('start', model.start(), 0x210),
            ('send', model.send(), 0xa5),
            ('send', model.send(), 0xc3),
            ('finish', model.finish(0), 0x200),
            ('command', model.write(Register.CMD_FIFO, Command(8, 5, read=True).word), 0),
            ('start', model.start(), 0x511),
            *(('receive', model.receive(byte), 0) for byte in range(5)),
            ('finish', model.finish(0), 0x501),
            ('word', model.read(Register.SDI_FIFO), 0x00010203),
            ('word', model.read(Register.SDI_FIFO), 0x04000000),
            ('CCC', model.write(Register.CMD_FIFO, Command(ccc=True).word), 0),
            ('ENTDAA', model.write(Register.CMD_FIFO, 7), 0),
            ('start', model.start(), 0x400000),
            ('request', model.request(0x01234567, 0x89abcdef), 0),
            ('address', model.write(Register.SDO_FIFO, 0x10000000), 0),
            ('take', model.take_address(), 8),
            ('finish', model.finish(0), 0x002)):
        equal('every call', name, got, Answer(wanted, Number.DONE))


def truth():
    """An answer is true exactly where the call was done, and `done` raises at every other number,
    with its name."""
    for number in Number:
        answer = Answer(7, int(number))
        equal('truth', number, bool(answer), number == Number.DONE)
        if answer:
            equal('truth', number, answer.done() is answer, True)
        else:
            refusal = raises('truth', number, Refused, answer.done)
            equal('truth', number, (refusal.number, str(refusal)),
                  (number, '%d: %s (%s)' % (number, answer.meaning, number.name)))
    model = Model.set_up(cmd=2)
    equal('truth', 'held in reset', bool(model.write(Register.CMD_FIFO, 0)), False)
    model.write(Register.ENABLE, 0).done()
    equal('truth', 'value', model.read(Register.CMD_FIFO_ROOM).done().value, 2)
    # A wrong parity bit: the word is taken, which is not all that was asked.
    for word in (Command(ccc=True).word, 7):
        model.write(Register.CMD_FIFO, word).done()
    for answer in (model.start(), model.request(1, 2), model.write(Register.SDO_FIFO, 0x11000000)):
        answer.done()
    taken = model.take_address()
    equal('truth', 'wrong parity', (taken, bool(taken), taken.refused),
          (Answer(8, Number.WRONG_PARITY), False, False))
    equal('truth', 'wrong parity', raises('truth', taken, Refused, taken.done).number,
          Number.WRONG_PARITY)


def bursts():
    """The output that a burst fills, one that is too short, and what a refusal leaves."""
    model = Model.set_up(output_words=1)
    model.write(Register.ENABLE, 0)
    model.write(Register.DEV_CHAR, Device(8, True).word)
    for place, command in enumerate((Command(8, 2, read=True), Command(8, 1),
                                     Command(8, 4, read=True))):
        model.write(OFFLOAD_CMD[place], command.word)
    model.write(OFFLOAD_SDO[0], 0xa5000000)
    model.write(Register.OPS, Ops(True, 3).word)
    equal('bursts', 'output too short', model.trigger(), Answer(0, Number.NO_ROOM))
    model.lend(2)
    equal('bursts', 'trigger', model.trigger(), Answer(0, Number.DONE))
    equal('bursts', 'place', model.image().burst_place, 0)
    model.receive(0x12)
    equal('bursts', 'finish', model.finish(0), Answer(0, Number.DONE))
    equal('bursts', 'place', model.image().burst_place, 1)
    equal('bursts', 'sent', model.send(), Answer(0xa5, Number.DONE))
    model.finish(0)
    for byte in (1, 2, 3, 4):
        model.receive(byte)
    model.finish(0)
    equal('bursts', 'place', model.image().burst_place, None)
    equal('bursts', 'output', model.output(), (0x12000000, 0x01020304))
    model.write(Register.OPS, Ops(True, 0).word)
    equal('bursts', 'no commands', model.trigger().number, Number.BURST_HAS_NO_COMMANDS)
    model.write(OFFLOAD_CMD[0], Command(8, 5).word)
    model.write(Register.OPS, Ops(True, 1).word)
    equal('bursts', 'not carried', model.trigger().number, Number.NOT_CARRIED)


def set_ups():
    fresh = Model.set_up().image()
    equal('set-up', 'of the session', [ring[:2] for ring in fresh.rings],
          [(4, 1), (4, 3), (4, 1), (4, 3), (4, 3)])
    equal('set-up', 'held in reset', (fresh.held, fresh.device_id), (True, 0))
    given = SetUp(2, 1, 1024, 3, 5, 2, 0, 1024, 1, 5, 255)
    model = Model.set_up(**given._asdict())
    equal('set-up', 'capacities', tuple(ring.capacity for ring in model.image().rings), given[:5])
    equal('set-up', 'watermarks', tuple(ring.watermark for ring in model.image().rings),
          given[5:10])
    equal('set-up', 'ID', model.read(Register.DEVICE_ID), Answer(255, Number.DONE))
    equal('set-up', 'store', len(model.store()), sum(given[:5]))
    for name, number in OUT_OF_RANGE:
        refusal = raises('set-up', '%s %d' % (name, number), Refused, Model.set_up,
                         **{name: number})
        equal('set-up', '%s %d' % (name, number), refusal.number,
              Number.SET_UP_OUT_OF_RANGE)
    for name in (*SetUp._fields, 'output_words'):
        for number in (-1, 1 << 32):
            raises('set-up', '%s %d' % (name, number), ValueError, Model.set_up, **{name: number})
        raises('set-up', '%s 1.5' % name, TypeError, Model.set_up, **{name: 1.5})
    raises('set-up', 'another name', TypeError, Model.set_up, size=4)


def ranges():
    """Numbers of more than 32 bits are errors of the caller; all others are answered."""
    model = Model.set_up()
    before = memory(model)
    for name, function, count in (
            ('write', model.write, 2), ('read', model.read, 1), ('receive', model.receive, 1),
            ('finish', model.finish, 1), ('interrupt', model.interrupt, 2),
            ('request', model.request, 2), ('step', lambda *three: model.step('W', *three), 3)):
        for place in range(count):
            for number, error in ((-1, ValueError), (1 << 32, ValueError), (1 << 70, ValueError),
                                  (1.0, TypeError), ('1', TypeError), (None, TypeError)):
                arguments = [0] * place + [number] + [0] * (count - place - 1)
                raises('ranges', '%s%r' % (name, arguments), error, function, *arguments)
    for letter, error in (('', ValueError), ('WR', ValueError), (-1, ValueError),
                          (1 << 32, ValueError), (b'W', TypeError), (None, TypeError)):
        raises('ranges', 'letter %r' % letter, error, model.step, letter)
    raises('ranges', 'limit', ValueError, model.replay, b'', 0, -1)
    raises('ranges', 'limit', ValueError, model.replay, b'', 0, 1 << 64)
    raises('ranges', 'section', ValueError, model.replay, b'', 1 << 32)
    for wrong in (5, 'I3TR', None, [1]):
        raises('ranges', 'trace %r' % wrong, TypeError, model.replay, wrong)
        raises('ranges', 'trace %r' % wrong, TypeError, section, wrong, 0)
        raises('ranges', 'trace %r' % wrong, TypeError, sections, wrong)
    raises('ranges', 'output', ValueError, model.lend, -1)
    raises('ranges', 'image', ValueError, Model, [1 << 32], [])
    equal('ranges', 'nothing changed', memory(model), before)


def no_calls():
    """Numbers that name no call are a wrong record and change nothing."""
    model = Model.set_up()
    model.write(Register.ENABLE, 0)
    before = memory(model)
    wrong = [(letter,) for letter in ('w', 'Q', '\0', 'B', '\u0157', 0x157, WORD, 0x10057)]
    wrong += [('W', 0x10000, 0), ('R', 0x10000), ('X', 0, 256), ('F', 0, 256), ('I', 0, 256, 0),
              ('I', 0, 0, 256)]
    for letter in LETTERS:
        used = len(DIGITS.get(letter, ())) + (letter not in 'WR')
        wrong += [(letter, *[0] * place, 1) for place in range(3)
                  if place >= used or (place == 0 and letter not in 'WR')]
    for numbers in wrong:
        equal('no calls', numbers, model.step(*numbers), Answer(0, Number.WRONG_RECORD))
    equal('no calls', 'nothing changed', memory(model), before)


def source_of(image, levels):
    """IRQ_SOURCE by the levels and pending bits (`source.levels`)."""
    cmd, cmdr, sdo, sdi, ibi = (ring.watermark for ring in image.rings)
    bits = (levels.cmd < cmd, levels.cmdr > cmdr, levels.sdo < sdo, levels.sdi > sdi,
            levels.ibi > ibi)
    return sum(bit << place for place, bit in enumerate(bits)) | image.pending


def shown_levels(model):
    """The levels by the registers."""
    sizes = [ring.capacity for ring in model.image().rings]
    cmd, cmdr, sdo, sdi, ibi = (model.read(offset).value for offset in (
        Register.CMD_FIFO_ROOM, Register.CMDR_FIFO_LEVEL, Register.SDO_FIFO_ROOM,
        Register.SDI_FIFO_LEVEL, Register.IBI_FIFO_LEVEL))
    return sizes[0] - cmd, cmdr, sizes[2] - sdo, sdi, ibi


def empty_reads():
    """A queue that is read empty shows the word last read from it, as often as it is read; a reset
    forgets it."""
    model = Model.set_up()

    def shown(name, *words):
        before = memory(model)
        for offset, word in zip(TAKES, words):
            for _ in range(2):
                equal('empty reads', '%s, %x' % (name, offset), model.read(offset), Answer(word, Number.EMPTY))
        equal('empty reads', name, memory(model), before)

    shown('fresh', 0, 0, 0)
    for answer in (
            model.write(Register.ENABLE, 0),
            model.write(Register.DEV_CHAR, Device(8, True, True, True).word),
            model.write(Register.IBI_CONFIG, 3), model.interrupt(8, 0x5a),
            model.write(Register.CMD_FIFO, Command(8, 2, read=True).word), model.start(),
            model.receive(0x12), model.receive(0x34), model.finish(0)):
        answer.done()
    words = [model.read(offset).done().value for offset in TAKES]
    equal('empty reads', 'words', words, [0x00000200, 0x12340000, 0x00105a00])
    shown('all read', *words)
    for enable, name in ((1, 'reset'), (0, 'released')):
        model.write(Register.ENABLE, enable).done()
        shown(name, 0, 0, 0)


def watermarks():
    """Each watermark by its register, in reset and released: at most the capacity, its source at
    once, and kept over a reset."""
    model = Model.set_up(cmd=6, cmdr=5, sdo=4, sdi=7, ibi=3)
    sizes = [ring.capacity for ring in model.image().rings]
    for enable in (1, 0):
        model.write(Register.ENABLE, enable).done()
        for place, (offset, size) in enumerate(zip(WATERMARKS, sizes)):
            name = '%s, ENABLE %d' % (offset.name, enable)
            for mark in (0, size, 1):
                equal('watermarks', name, model.write(offset, 0x50000 | mark), Answer(0, Number.DONE))
                equal('watermarks', name, (model.read(offset).value, model.image().rings[place].watermark),
                      (mark, mark))
                # Queues are empty: fewer words than that are in CMD and SDO, more in none.
                equal('watermarks', name, bool(model.source() & 1 << place), place in (0, 2) and mark > 0)
            before = memory(model)
            for mark in (size + 1, 1025, 0xffff, WORD):
                equal('watermarks', name, model.write(offset, mark),
                      Answer(0, Number.WATERMARK_ABOVE_CAPACITY))
            for beside in (offset + 2, WATERMARKS[-1] + 4):
                equal('watermarks', name, model.write(beside, 0).number, Number.NO_REGISTER)
            equal('watermarks', name, memory(model), before)
    for enable in (1, 0):
        model.write(Register.ENABLE, enable).done()
        equal('watermarks', 'over a reset', [model.read(offset).value for offset in WATERMARKS], [1] * 5)


def images():
    """The image by names is what the registers show; a refused call changes no word, and has a value
    only of an empty queue, the word last read from it; the first word of a queue is the next that a
    read takes."""
    for seed in (1, 2):
        model, latest = Model.set_up(), dict.fromkeys(TAKES, 0)
        for call in session.calls(generated(seed, 6000)):
            before = memory(model)
            first = {name: before[0].queue(name, before[1])[:1] for name in TAKES.values()}
            answer = model.make(call)
            image = model.image()
            if answer.refused:
                value = latest[call.offset] if answer.number == Number.EMPTY else 0
                equal('refused calls', call, (answer.value, memory(model)), (value, before))
            elif call.letter == 'R' and call.offset in TAKES:
                equal('words taken', call, first[TAKES[call.offset]], (answer.value,))
                latest[call.offset] = answer.value
            if image.held:
                latest = dict.fromkeys(TAKES, 0)
            equal('images', 'last read after %s' % (call,), image.latest, tuple(latest.values()))
            equal('images', 'levels after %s' % (call,), image.levels, shown_levels(model))
            equal('images', 'watermarks after %s' % (call,), [ring.watermark for ring in image.rings],
                  [model.read(offset).value for offset in WATERMARKS])
            equal('images', 'source after %s' % (call,), model.source(),
                  source_of(image, image.levels))
            equal('images', 'pending after %s' % (call,), model.shown(),
                  model.source() & image.irq_mask)
            equal('images', 'OPS after %s' % (call,), model.read(Register.OPS).value,
                  image.ops | (image.transfer.phase == 0) << 7)
            equal('images', 'ENABLE after %s' % (call,), model.read(Register.ENABLE).value,
                  image.held)


def tables():
    """What the three tables keep: the flags of every device, every offload word."""
    model = Model.set_up()
    words = {offset: 0x01010101 * place
             for place, offset in enumerate([*OFFLOAD_CMD, *OFFLOAD_SDO])}
    for address in range(128):
        model.write(Register.DEV_CHAR, Device(address, *flags_of(address)).word)
    for offset, word in words.items():
        model.write(offset, word)
    image = model.image()
    for address in range(128):
        model.write(Register.DEV_CHAR, Device(address, store=False).word)
        equal('tables', 'device %d' % address, Device.of(model.read(Register.DEV_CHAR).value),
              Device(address, *flags_of(address), store=False))
        equal('tables', 'device %d in the image' % address, image.device(address),
              Device(address, *flags_of(address), store=False))
    for offset, word in words.items():
        equal('tables', 'offset %x' % offset, model.read(offset), Answer(word, Number.DONE))
    equal('tables', 'offload words', image.offload_commands + image.offload_data,
          tuple(words.values()))


def flags_of(address):
    """Three flags, other ones for each of eight addresses in a row."""
    return [bool(address * 5 >> place & 1) for place in range(3)]


def goes_on():
    """A model made of another one's words answers as that one does."""
    calls = list(session.calls(generated(5, 4000)))
    first = Model.set_up()
    for call in calls[:3000]:
        first.make(call)
    second = Model(first.image(), first.store(), first.output())
    equal('goes on', 'type', type(second.image()), Image)
    for call in calls[3000:]:
        equal('goes on', call, second.make(call), first.make(call))
    equal('goes on', 'memory', memory(second), memory(first))


def copies():
    """A copy is a snapshot, however it is made: it answers as the model did then, and calls on one
    leave the other."""
    calls = list(session.calls(generated(6, 2000)))
    for way in (Model.copy, copy.copy, copy.deepcopy):
        model = Model.set_up(output_words=3)
        for call in calls[:1000]:
            model.make(call)
        then = memory(model)
        made = way(model)
        answers = [model.make(call) for call in calls[1000:]]
        model.lend(1)
        equal('copies', way.__name__, memory(made), then)
        now = memory(model)
        equal('copies', way.__name__, [made.make(call) for call in calls[1000:]], answers)
        equal('copies', way.__name__, (memory(model), len(made.output())), (now, 3))
        equal('copies', way.__name__, now[:2], memory(made)[:2])


def copies_in_calls():
    """A copy that is made while threads call is whole: no call is half in it."""
    model = Model.set_up(cmd=1024)
    model.write(Register.ENABLE, 0)
    worker = threading.Thread(target=lambda: [model.write(Register.CMD_FIFO, word)
                                              for word in range(1, 1025)])
    worker.start()
    for _ in range(50):
        image, store, _ = memory(copy.copy(model))
        equal('copies', 'queue', image.queue('cmd', store), tuple(range(1, image.levels.cmd + 1)))
    worker.join()


def threads():
    """Threads that share a model: each call is whole. Every command taken is run, in some order."""
    model = Model.set_up(cmd=1024, cmdr=1024)
    model.write(Register.ENABLE, 0)
    answers = []

    def work(address):
        for _ in range(WRITES):
            answers.append(model.write(Register.CMD_FIFO, Command(address).word).number)

    workers = [threading.Thread(target=work, args=[address]) for address in range(THREADS)]
    for worker in workers:
        worker.start()
    for worker in workers:
        worker.join()
    equal('threads', 'taken', answers.count(Number.DONE), 1024)
    equal('threads', 'dropped', answers.count(Number.DROPPED_FULL), THREADS * WRITES - 1024)
    for sync in range(1024):
        model.start()
        equal('threads', 'receipt', Receipt.of(model.finish(8).value), (8, 0, sync % 256))
    equal('threads', 'pending', model.image().pending, Irq.CMDR_PENDING)


if __name__ == '__main__':
    main('calls', [worked_session, every_call, empty_reads, watermarks, truth, bursts, set_ups, ranges,
                   no_calls, images, tables, goes_on, copies, copies_in_calls, threads])
