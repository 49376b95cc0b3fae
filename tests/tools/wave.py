#!/usr/bin/env python3
"""tools/wave: its value change dump is read back and held to the model at every call; its save file
for GTKWave to the dump.

    wave.py

The reader is that of dump.py, which knows nothing of the tool. Levels, pending bits and the
interrupt line are compared with what the registers show, the open transfer with a count kept from
calls and answers, the names of numbers with include/thymewax.h, words with those of tools/explain.
Needs the shared library. Exit status 0 only if all is as expected.
"""

import os
import pathlib
import re
import resource
import subprocess
import sys
import tempfile

sys.path.insert(0, str(pathlib.Path(__file__).resolve().parents[2]))

from tests import ROOT
from tests.shared.trial import equal, generated, main, tool
from tests.tools.dump import EACH, LEVELS, Wave
from thymewax import Call, Command, Model, Ops, Register, SetUp, name_of, session, trace

SEEDS = (1, 2, 3)
CALLS = 4000
OTHER = SetUp(2, 1, 7, 5, 3, 2, 0, 4, 1, 2, 9)
BURST = b'''W 40 0
W 180 1102
W 2c0 211
W 2c4 110
W 2c8 411
W 300 a5000000
W 100 7
G
X 12
X 34
F 0
T
F 0
X 1
W 40 1
G
'''
# Numbers by the names of include/thymewax.h.
NUMBERS = {int(number): name for name, number in re.findall(
    r'THYMEWAX_(\w+) = (\d+)', re.search(r'^enum thymewax_number \{(.*?)^\};', (
        ROOT / 'include/thymewax.h').read_text(), re.MULTILINE | re.DOTALL)[1])}
CALLED = {'W': 'write', 'R': 'read', 'S': 'start', 'T': 'send', 'X': 'receive', 'F': 'finish',
          'I': 'interrupt request', 'D': 'address request', 'A': 'address take', 'G': 'trigger'}
PHASES = ['IDLE', 'WRITING', 'READING', 'ASSIGNING', 'ASSIGNING_REQUEST_OPEN',
          'ASSIGNING_SOME_ANSWERED']
KINDS = ['PRIVATE', 'DIRECT_CCC', 'BROADCAST_CCC']
# A take of an address word with a wrong parity bit.
PARITY = b'W 40 0\nW d4 400000\nW d4 7\nS\nD 1 2\nW dc 11000000\nA\n'
# How many calls the table is tried with, and for how long at most.
MANY, SECONDS = 100000, 20


class Watch:
    """The open transfer by the calls and their answers."""

    def __init__(self):
        self.words = []
        self.length = self.moved = 0

    def follow(self, call, answer):
        if not answer:
            return
        if call.letter == 'W' and call.offset == Register.CMD_FIFO:
            self.words.append(call.first)
        elif call.letter == 'W' and call.offset == Register.ENABLE and call.first & 1:
            self.words, self.length, self.moved = [], 0, 0
        elif call.letter == 'S':
            first = Command.of(self.words.pop(0))
            entdaa = first.ccc and self.words.pop(0) & 0xff == 7
            self.length, self.moved = 0 if entdaa else first.length, 0
        elif call.letter in 'TX':
            self.moved += 1
        elif call.letter == 'F':
            self.length = self.moved = 0


def registers(model):
    """What the registers show of the signals."""
    sizes = {name: ring.capacity for name, ring in model.image().rings._asdict().items()}
    shown = {}
    for name, offset in LEVELS.items():
        value = model.read(offset).value
        shown['level.' + name] = sizes[name] - value if name in ('cmd', 'sdo') else value
    source, mask = (model.read(offset).value for offset in (Register.IRQ_SOURCE, Register.IRQ_MASK))
    shown.update({'irq.source': source, 'irq.mask': mask,
                  'irq.line': int(model.read(Register.IRQ_PENDING).value != 0),
                  'irq.pending_5_cmdr': source >> 5 & 1, 'irq.pending_6_ibi': source >> 6 & 1,
                  'irq.pending_7_daa': source >> 7,
                  'bank.held_in_reset': model.read(Register.ENABLE).value})
    return shown


def compare(kind, time, values, wanted):
    for name, value in wanted.items():
        equal(kind, 'time %d, %s' % (time, name), values['thymewax.' + name], value)


def check(kind, text, parts, numbers):
    """Every call of a wave."""
    wave, model, watch = Wave(text), Model.set_up(**numbers._asdict()), Watch()
    (first, values), *times = wave.times
    equal(kind, 'first time', first, 0)
    compare(kind, 0, values, {**registers(model), 'access.call': '', 'answer.value': None})
    equal(kind, 'unit', wave.timescale, '1 s')
    calls = [(number, call) for number, part in enumerate(parts) for call in part]
    equal(kind, 'times', [time for time, _ in times], list(range(1, len(calls) + 2)))
    bursts = [call for _, call in calls if call.letter == 'G']
    for (section, call), (time, values) in zip(calls, times):
        answer = model.make(call)
        watch.follow(call, answer)
        name = name_of(call.offset) or 'offset %04x' % call.offset
        compare(kind, time, values, {
            'access.call': '%d %s' % (time, CALLED[call.letter]),
            'access.register': name if call.letter in 'WR' else '',
            'access.script_line': session.line_of(call) if call.right else call.letter,
            'access.section': section, 'access.offset': call.offset, 'access.first': call.first,
            'access.second': call.second, 'answer.value': answer.value,
            'answer.answer': '%d %s' % (answer.number, NUMBERS[answer.number]),
            'answer.number': answer.number,
            'transfer.phase': PHASES[model.image().transfer.phase], **registers(model)})
        equal(kind, 'written at %d' % time, EACH - wave.written[time], set())
        equal(kind, 'open at %d' % time, values['thymewax.transfer.phase'] == 'IDLE',
              Ops.of(model.read(Register.OPS).value).idle)
        if not bursts:
            compare(kind, time, values, {'transfer.length': watch.length,
                                         'transfer.moved': watch.moved, 'bank.burst': 0})
    return wave


def wave_of(*arguments, data):
    status, output, message = tool('wave', *arguments, data=data)
    equal('runs', arguments, (status, message), (0, b''))
    return output.decode()


def scripts():
    for seed in SEEDS:
        script = generated(seed, CALLS)
        check('session', wave_of('--skip', data=script), [list(session.calls(script))], SetUp())


def other_set_up():
    script = generated(5, CALLS)
    options = [word for name, number in OTHER._asdict().items()
               for word in ('--' + name.replace('_', '-'), number)]
    check('other set-up', wave_of('--skip', *options, data=script),
          [list(session.calls(script))], OTHER)


def traces():
    calls = list(session.calls(generated(8, CALLS)))
    parts = [calls[:700], [], calls[700:]]
    file = trace.join(trace.records(calls), [700, 0])
    check('trace', wave_of(data=file), parts, SetUp())
    check('trace', wave_of(data=trace.join(b'')), [[]], SetUp())


def bursts():
    """The places of a burst: two of three commands done, the third cut off by a reset."""
    calls = [Call('G') if line == b'G' else session.call_of(line) for line in session.lines(BURST)]
    wave = check('burst', wave_of('--bursts', data=BURST), [calls], SetUp())
    wanted = [0] * 8 + [1] * 3 + [2] * 2 + [3] * 2 + [0] * 3
    equal('burst', 'places', [values['thymewax.bank.burst'] for _, values in wave.times], wanted)
    moved = [values['thymewax.transfer.moved'] for _, values in wave.times]
    equal('burst', 'bytes moved', moved, [0] * 8 + [0, 1, 2, 0, 1, 0, 1, 0, 0, 0])


def equal_calls():
    """Five equal writes in a row, one of them dropped, are five changes of every lane of a call."""
    wave = check('equal calls', wave_of(data=b'W 40 0\n' + b'W d4 110\n' * 6),
                 [[Call('W', 0x40), *[Call('W', 0xd4, 0x110)] * 6]], SetUp())
    equal('equal calls', 'calls', wave.lane('access.call')[1:],
          ['%d write' % time for time in range(2, 8)])
    equal('equal calls', 'answers', wave.lane('answer.answer'),
          ['0 DONE'] * 5 + ['1 DROPPED_FULL'] * 2)
    equal('equal calls', 'levels', wave.lane('level.cmd'), [0, 1, 2, 3, 4, 4, 4])


def parity():
    """19 is 19, in text and as a number that viewers show in decimal."""
    wave = check('19', wave_of(data=PARITY), [list(session.calls(PARITY))], SetUp())
    equal('19', 'answer', wave.lane('answer.answer')[-1], '19 WRONG_PARITY')
    equal('19', 'number', wave.lane('answer.number')[-1], 19)
    equal('19', 'phases', wave.lane('transfer.phase'),
          ['IDLE'] * 3 + ['ASSIGNING'] + ['ASSIGNING_REQUEST_OPEN'] * 3)


def words():
    """The words of a call are those of tools/explain, without what other lanes have."""
    for script, options in ((generated(4, 1500), ['--skip']), (BURST, ['--bursts'])):
        wave = Wave(wave_of(*options, data=script))
        _, log, _ = tool('explain', *options, data=script)
        told = [line[41:] for line in log.decode().split('\n\n')[0].split('\n')
                if line[:5].strip().isdigit()]
        lanes = zip(wave.lane('access.call'), wave.lane('access.register'),
                    wave.lane('access.words'), told, strict=True)
        for call, register, more, line in lanes:
            head = ' '.join(filter(None, [call.split(' ', 1)[1], register]))
            equal('words', call, line in (head + more, head + ' ' + more, head + ': ' + more), True)


def texts():
    """The table has what the dump has; rows that it leaves out never change there, or have text or
    more bits."""
    named = {'transfer.phase': PHASES, 'transfer.kind': KINDS}
    script = generated(13, 2000)
    wave, rows = Wave(wave_of('--skip', data=script)), {}
    for line in filter(None, wave_of('--skip', '--text', data=script).split('\n')):
        name, *cells = line.split()
        rows.setdefault(name, []).extend(cells)
    equal('text', 'calls', rows.pop('call'), [str(time) for time, _ in wave.times[:-1]])
    equal('text', 'letters', rows.pop('access.letter'),
          ['.', *(line[0] for line in wave.lane('access.script_line'))])
    for full, kind in wave.kinds.items():
        name = full.removeprefix('thymewax.')
        values = [values[full] for _, values in wave.times[:-1]]
        if name in named:
            values = [named[name].index(value) for value in values]
        elif kind == 'string' or kind == 'wire' and wave.widths[full] > 8:
            continue
        shown = ['.' if value is None else str(value) for value in values]
        equal('text', name, rows.pop(name, None), shown if len(set(shown)) > 1 else None)
    equal('text', 'other rows', rows, {})


def many_calls():
    """The time of a table grows as its length. Calls of five and six digits have a blank
    between them."""
    script = b'W 40 0\n' + b'W d4 110\nR c0\nS\nF 8\nR d8\n' * (MANY // 5)
    done = subprocess.run(
        [sys.executable, '-B', ROOT / 'tools/wave', '--text'], input=script, capture_output=True,
        check=False,
        preexec_fn=lambda: resource.setrlimit(resource.RLIMIT_CPU, (SECONDS, SECONDS)))
    equal('many calls', 'status', (done.returncode, done.stderr), (0, b''))
    rows = {}
    for line in filter(None, done.stdout.decode().split('\n')):
        name, *cells = line.split()
        rows.setdefault(name, []).extend(cells)
    equal('many calls', 'calls', rows['call'], [str(time) for time in range(MANY + 2)])
    equal('many calls', 'letters', ''.join(rows['access.letter']), '.W' + 'WRSFR' * (MANY // 5))
    equal('many calls', 'levels', ''.join(rows['level.cmd']), '00' + '11000' * (MANY // 5))


def save_lanes(save):
    """The lanes of a save file, each with its flags; titles are left out."""
    flags, lanes = None, []
    for line in save.split('\n'):
        if line.startswith('@'):
            flags = line
        elif line and line[0] not in '[*-':
            lanes.append((line, flags))
    return lanes


def save_files():
    """Beside a VCD stands a save file: its lanes are in the VCD, each in the form of its type. Its
    marker stands at the first call that was not done, which is in sight."""
    forms = {'string': '@820', 'integer': '@24'}
    with tempfile.TemporaryDirectory() as folder:
        path = pathlib.Path(folder) / 'a wave.vcd'
        save = path.with_suffix('.gtkw')
        for script, marker, start in ((PARITY, 7, 1), (b'R 1\n', 1, 0),
                                      (b'W 40 0\nR 4\n', -1, 0), (b'', -1, 0)):
            equal('save files', 'output', wave_of('-o', path, data=script), '')
            dump, text = path.read_text(), save.read_text()
            equal('save files', 'dump', dump, wave_of(data=script))
            wave = Wave(dump)
            names = {name + ('' if kind != 'wire' or wave.widths[name] == 1 else '[%d:0]' % (
                wave.widths[name] - 1)): name for name, kind in wave.kinds.items()}
            lanes = save_lanes(text)
            for lane, flags in lanes:
                equal('save files', lane, lane in names, True)
                kind = wave.kinds[names[lane]]
                wide = wave.widths[names[lane]] > 8
                equal('save files', lane, flags, forms.get(kind, '@22' if wide else '@28'))
            shown = [lane.removeprefix('thymewax.') for lane, _ in lanes]
            equal('save files', 'order', shown[:5], ['access.call', 'access.register',
                                                     'access.script_line', 'access.words',
                                                     'answer.answer'])
            equal('save files', 'levels and phase', {
                'transfer.phase', *('level.' + name for name in LEVELS)} - set(shown), set())
            equal('save files', 'marker', re.findall(r'^\*\S+ (-?\d+)(?: -1){26}$', text,
                                                     re.MULTILINE), [str(marker)])
            equal('save files', 'start', '\n[timestart] %d\n' % start in text, True)
            equal('save files', 'dump file', '[dumpfile] "%s"\n' % path.resolve() in text, True)


def arranged():
    """A save file that GTKWave has written since is kept; nothing else is written over."""
    with tempfile.TemporaryDirectory() as folder:
        path = pathlib.Path(folder) / 'wave.vcd'
        save = path.with_suffix('.gtkw')
        wave_of('-o', path, data=PARITY)
        ours = save.read_bytes()
        theirs = b'[*]\n[*] GTKWave Analyzer v3.3.118 (w)1999-2023 BSI\n@28\nmine\n'
        save.write_bytes(theirs)
        wave_of('-o', path, data=b'R 4\n')
        equal('arranged', 'kept', save.read_bytes(), theirs)
        equal('arranged', 'dump', path.read_text(), wave_of(data=b'R 4\n'))
        save.unlink()
        wave_of('-o', path, data=PARITY)
        equal('arranged', 'as before', save.read_bytes(), ours)
        save.unlink()
        table = wave_of('--text', data=PARITY)
        equal('arranged', 'table', wave_of('--text', '-o', path, data=PARITY), '')
        equal('arranged', 'table', (path.read_text(), save.exists()), (table, False))
        equal('arranged', 'no file', wave_of('-o', '/dev/null', data=PARITY), '')
        equal('arranged', 'no file', os.path.exists('/dev/null.gtkw'), False)
        script = pathlib.Path(folder) / 'script.gtkw'
        for source, target, told in (
                (path, path, 'is the input'), (script, script.with_suffix('.vcd'), 'is the input'),
                (path, save, 'needs another'), (path, folder + '/./a.gtkw', 'needs another'),
                (path, folder, 'Is a directory'),
                (path, folder + '/no/wave.vcd', 'No such file'), (path, '', 'No such file'),
                (path, '/dev/full', 'No space left'), (folder + '/none', path, 'No such file')):
            path.write_bytes(PARITY)
            script.write_bytes(PARITY)
            before = sorted(os.listdir(folder))
            status, output, message = tool('wave', '-o', target, source)
            equal('arranged', '%s: %s' % (told, message), (status, output, message.count(b'\n')),
                  (2, b'', 1))
            equal('arranged', message, told in message.decode(), True)
            equal('arranged', told, sorted(os.listdir(folder)), before)
            equal('arranged', told, (path.read_bytes(), script.read_bytes()), (PARITY, PARITY))
        path.write_bytes(PARITY)
        bad = tool('wave', '-o', path, data=b'nothing\n')
        equal('arranged', 'bad input', (bad[0], path.read_bytes()), (2, PARITY))


if __name__ == '__main__':
    main('wave', [scripts, other_set_up, traces, bursts, equal_calls, parity, words, texts,
                  many_calls, save_files, arranged])
