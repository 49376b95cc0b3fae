#!/usr/bin/env python3
"""tools/explain: its words, its counts, its ledger of commands, the first difference it finds.

    explain.py [SESSION]

With SESSION, a session program, the answers of the log are also held to what that prints. Needs the
shared library. Exit status 0 only if all is as expected.
"""

import contextlib
import itertools
import pathlib
import re
import sys
import tempfile
from collections import Counter, defaultdict

sys.path.insert(0, str(pathlib.Path(__file__).resolve().parents[2]))

from tests.scripts.lines import SET_UP, lent, line_pattern, split
from tests.scripts.source import Source
from tests.shared.packing import pack
from tests.shared.trial import equal, generated, main, run, tool
from thymewax import MEANINGS, Model, Number, Refused, Register, SetUp, session
import inputs
import wording
from data_words import Address, Payload, Read, Removed, Request, Sent
from ledger import Ledger

SEEDS = (1, 2, 3)
CALLS = 5000
# In scripts with set-ups and bursts: the first burst is late in them.
TEST_CALLS = 20000
SET_UP_LINE = line_pattern([SET_UP])
OTHER_SET_UPS = [{}, {'sdo': 1, 'sdi': 2, 'sdi_mark': 1}, {'sdo': 16, 'sdi': 1024, 'cmdr': 9}]
# A line of counts, and the words behind it.
DATA_COUNTS = r'^(data words .*)\n((?:  .*\n)*)'
PLACES = 6


def telling(how):
    """What is told of a call with a number that is not 0, and why where that is told."""
    def tell(number, why=''):
        return '%s: %d, %s%s' % (how, number, MEANINGS[number], ' (%s)' % why if why else '')
    return tell


refused, dropped, taken = map(telling, ('refused', 'dropped', 'taken'))


def old_word(queue, call):
    """What is told of an empty queue that shows the word of a call."""
    return refused(Number.EMPTY, 'the value is an old one: the word last read from %s, first by '
                   'call %d' % (queue, call))


def none_read(queue):
    return refused(Number.EMPTY, 'no word was read from %s since the reset' % queue)


# Lines and what is told of each: the words behind the answer, then the reason, if there is one.
TOLD = [
    ('W 40 0', 'write ENABLE: release'),
    ('W 180 1102', 'write DEV_CHAR: device 08, attached'),
    ('R 180', 'read DEV_CHAR: device 08, attached'),
    ('W 180 1000', 'write DEV_CHAR: select device 08'),
    ('W 008 2a', 'write SCRATCH: 0000002a'),
    ('W 080 a1', 'write IRQ_MASK: show CMD_ALMOST_EMPTY, CMDR_PENDING, DAA_PENDING'),
    ('R 088', 'read IRQ_SOURCE: CMD_ALMOST_EMPTY, SDO_ALMOST_EMPTY'),
    ('R 084', 'read IRQ_PENDING: CMD_ALMOST_EMPTY'),
    ('R 0e8', 'read FIFO_STATUS: CMDR_EMPTY, IBI_EMPTY, SDI_EMPTY'),
    ('W 0dc a1b2c300', 'write SDO_FIFO: bytes a1 b2 c3 00'),
    ('W 0d4 00300310', 'write CMD_FIFO: private write to 08, 3 bytes, broadcast header, '
     'repeated start'),
    ('S', 'start: private write to 08, 3 bytes, broadcast header, repeated start (call 11)'),
    ('S', 'start', refused(Number.TRANSFER_OPEN, 'private write, 0 of 3 bytes moved')),
    ('T', 'send: a1, byte 1 of 3; taken from SDO: a1b2c300 (call 10)'),
    ('X 1', 'receive 01', refused(Number.NOT_THIS_KIND, 'private write, 1 of 3 bytes moved')),
    ('F 0', 'finish with no error',
     refused(Number.ENDING_NOT_ALLOWED, 'private write, 1 of 3 bytes moved')),
    ('T', 'send: b2, byte 2 of 3'),
    ('T', 'send: c3, byte 3 of 3'),
    ('T', 'send', refused(Number.LENGTH_REACHED, 'private write, 3 of 3 bytes moved')),
    ('F 0', 'finish with no error: receipt no error, 3 bytes moved, sync 0; private write to 08, '
     '3 bytes, broadcast header, repeated start (call 11); sent for it: a1b2c300 (call 10, first 3 '
     'bytes)'),
    ('R 0d8', 'read CMDR_FIFO: no error, 3 bytes moved, sync 0; private write to 08, 3 bytes, '
     'broadcast header, repeated start (call 11)'),
    ('R 0d8', 'read CMDR_FIFO', old_word('CMDR_FIFO', 21)),
    ('S', 'start', refused(Number.NO_COMMAND, 'CMD has 0 of 4 words')),
    ('W 0d4 00000113', 'write CMD_FIFO: private read from 09, 1 byte'),
    ('S', 'start: private read from 09, 1 byte (call 24)'),
    ('X 5', 'receive 05', refused(Number.NOT_ATTACHED, 'it was not when the transfer opened')),
    ('F 8', 'finish with unknown address: receipt unknown address, 0 bytes moved, sync 1; private '
     'read from 09, 1 byte (call 24)'),
    ('W 0d4 00400210', 'write CMD_FIFO: first word of a CCC'),
    ('W 0d4 0000008b', 'write CMD_FIFO: second word of a CCC, direct, code 8b'),
    ('S', 'start: direct CCC 8b write to 08, 2 bytes (call 28)'),
    ('F 6', 'finish with NACK: receipt NACK, 0 bytes moved, sync 2; direct CCC 8b write to 08, '
     '2 bytes (call 28)'),
    ('W 084 ff', 'write IRQ_PENDING: clear CMDR_PENDING, IBI_PENDING, DAA_PENDING'),
    ('W 0c0 1', 'write CMD_FIFO_ROOM: 00000001', dropped(Number.DROPPED_READ_ONLY)),
    ('W 1234 1', 'write offset 1234: 00000001', dropped(Number.NO_REGISTER, 'not in the map')),
    ('R 0c1', 'read offset 00c1', refused(Number.NO_REGISTER, 'not a multiple of 4')),
    ('W 140 1', 'write IBI_CONFIG: IBI_CONFIG_ENABLE'),
    ('I 8 5a', 'interrupt request of 08 with 5a', refused(Number.NOT_HEARD)),
    ('W 0d4 00400000', 'write CMD_FIFO: first word of a CCC'),
    ('W 0d4 00000007', 'write CMD_FIFO: second word of a CCC, ENTDAA'),
    ('S', 'start: ENTDAA (call 38)'),
    ('D 1 2', 'address request with 00000001 00000002'),
    ('W 0dc 11000000', 'write SDO_FIFO: address 08, parity wrong'),
    ('A', 'address take: address 08; taken from SDO: 11000000 (call 42)',
     taken(Number.WRONG_PARITY)),
    ('F 10', 'finish with code 16', refused(Number.OUT_OF_RANGE)),
    ('W 040 1', 'write ENABLE: reset and hold'),
    ('W 0dc 1', 'write SDO_FIFO: bytes 00 00 00 01', dropped(Number.HELD_IN_RESET)),
    ('R 100', 'read OPS: direct mode, offload length 0, speed 0, no transfer open'),
    ('W 2c4 411', 'write OFFLOAD_CMD[1]: private read from 08, 4 bytes'),
    ('R 300', 'read OFFLOAD_SDO[0]: bytes 00 00 00 00'),
]
# The same with bursts.
BURST_TOLD = [
    ('W 40 0', 'write ENABLE: release'),
    ('W 180 1102', 'write DEV_CHAR: device 08, attached'),
    ('W 2c0 211', 'write OFFLOAD_CMD[0]: private read from 08, 2 bytes'),
    ('W 2c4 110', 'write OFFLOAD_CMD[1]: private write to 08, 1 byte'),
    ('W 2c8 111', 'write OFFLOAD_CMD[2]: private read from 08, 1 byte'),
    ('W 300 a5000000', 'write OFFLOAD_SDO[0]: bytes a5 00 00 00'),
    ('G', 'trigger', refused(Number.NOT_IN_THIS_MODE, 'OPS says direct mode')),
    ('W 100 7', 'write OPS: offload mode, offload length 3, speed 0'),
    ('G', 'trigger: a burst of 3 commands'),
    ('X 12', 'receive 12: byte 1 of 2'),
    ('W 100 0', 'write OPS: direct mode, offload length 0, speed 0',
     dropped(Number.TRANSFER_OPEN, 'private read, 1 of 2 bytes moved, command 0 of a burst')),
    ('F 0', 'finish with no error: word 0 of the output is 12000000, command 1 of the burst is '
     'next'),
    ('T', 'send: a5, byte 1 of 1'),
    ('F 0', 'finish with no error: command 2 of the burst is next'),
    ('X 34', 'receive 34: byte 1 of 1'),
    ('F 0', 'finish with no error: word 1 of the output is 34000000, the burst is done'),
]
# Causes that lie in the state before the call, and a command that is not whole.
CAUSES_TOLD = [
    ('W 40 0', 'write ENABLE: release'),
    ('W 180 110c', 'write DEV_CHAR: device 08, not attached, may interrupt, sends a byte'),
    ('R 180', 'read DEV_CHAR: device 08, not attached, may interrupt, sends a byte'),
    ('W 140 2', 'write IBI_CONFIG: IBI_CONFIG_LISTEN'),
    ('I 8 5a', 'interrupt request of 08 with 5a',
     refused(Number.NOT_ACKNOWLEDGED, 'IBI_CONFIG_ENABLE is 0')),
    ('W 140 3', 'write IBI_CONFIG: IBI_CONFIG_ENABLE, IBI_CONFIG_LISTEN'),
    ('I 8 5a', 'interrupt request of 08 with 5a',
     refused(Number.NOT_ACKNOWLEDGED, 'device 08 is not attached')),
    ('W 180 110a', 'write DEV_CHAR: device 08, attached, sends a byte'),
    ('I 8 5a', 'interrupt request of 08 with 5a',
     refused(Number.NOT_ACKNOWLEDGED, 'device 08 may not interrupt')),
    ('W 180 110e', 'write DEV_CHAR: device 08, attached, may interrupt, sends a byte'),
    ('I 8 5a', 'interrupt request of 08 with 5a: interrupt from 08, byte 5a, sync 0'),
    ('W 100 5', 'write OPS: offload mode, offload length 2, speed 0'),
    ('S', 'start', refused(Number.NOT_IN_THIS_MODE, 'OPS says offload mode')),
    ('W 2c4 510', 'write OFFLOAD_CMD[1]: private write to 08, 5 bytes'),
    ('G', 'trigger', refused(Number.NOT_CARRIED, 'OFFLOAD_CMD[1] has 5 bytes')),
    ('W 2c0 400010', 'write OFFLOAD_CMD[0]: first word of a CCC'),
    ('G', 'trigger', refused(Number.NOT_CARRIED, 'OFFLOAD_CMD[0] is a CCC')),
    ('W 100 0', 'write OPS: direct mode, offload length 0, speed 0'),
    ('W 0d4 113', 'write CMD_FIFO: private read from 09, 1 byte'),
    ('S', 'start: private read from 09, 1 byte (call 19)'),
    ('W 180 1302', 'write DEV_CHAR: device 09, attached'),
    ('X 5', 'receive 05', refused(Number.NOT_ATTACHED, 'it was not when the transfer opened')),
    ('W 0d4 400210', 'write CMD_FIFO: first word of a CCC'),
]
# Writes that fail: the words that leave SDO, and the command that they were for.
FAILED_TOLD = [
    ('W 40 0', 'write ENABLE: release'),
    ('W 180 1102', 'write DEV_CHAR: device 08, attached'),
    ('W 0dc 01d00000', 'write SDO_FIFO: bytes 01 d0 00 00'),
    ('W 0dc a5c30000', 'write SDO_FIFO: bytes a5 c3 00 00'),
    ('W 0d4 210', 'write CMD_FIFO: private write to 08, 2 bytes'),
    ('S', 'start: private write to 08, 2 bytes (call 5)'),
    ('F 6', 'finish with NACK: receipt NACK, 0 bytes moved, sync 0; private write to 08, 2 bytes '
     '(call 5); removed from SDO for it: 01d00000 (call 3)'),
    ('R 0d8', 'read CMDR_FIFO: NACK, 0 bytes moved, sync 0; private write to 08, 2 bytes (call 5)'),
    ('W 0d4 210', 'write CMD_FIFO: private write to 08, 2 bytes'),
    ('S', 'start: private write to 08, 2 bytes (call 9)'),
    ('T', 'send: a5, byte 1 of 2; taken from SDO: a5c30000 (call 4)'),
    ('T', 'send: c3, byte 2 of 2'),
    ('F 0', 'finish with no error: receipt no error, 2 bytes moved, sync 1; private write to 08, '
     '2 bytes (call 9); sent for it: a5c30000 (call 4, first 2 bytes)'),
    ('W 0dc 11111111', 'write SDO_FIFO: bytes 11 11 11 11'),
    ('W 0dc 22222222', 'write SDO_FIFO: bytes 22 22 22 22'),
    ('W 0d4 912', 'write CMD_FIFO: private write to 09, 9 bytes'),
    ('S', 'start: private write to 09, 9 bytes (call 16)'),
    ('F 8', 'finish with unknown address: receipt unknown address, 0 bytes moved, sync 2; private '
     'write to 09, 9 bytes (call 16); removed from SDO for it: 11111111 (call 14), '
     '22222222 (call 15)'),
    ('W 0dc 33333333', 'write SDO_FIFO: bytes 33 33 33 33'),
    ('W 0d4 411', 'write CMD_FIFO: private read from 08, 4 bytes'),
    ('S', 'start: private read from 08, 4 bytes (call 20)'),
    ('F 6', 'finish with NACK: receipt NACK, 0 bytes moved, sync 3; private read from 08, 4 bytes '
     '(call 20)'),
]
# Empty queues: before a word, after one and again, each with its own; a word of 0; after a reset.
EMPTY_TOLD = [
    ('R 0e4', 'read IBI_FIFO', none_read('IBI_FIFO')),
    ('W 40 0', 'write ENABLE: release'),
    ('R 0d8', 'read CMDR_FIFO', none_read('CMDR_FIFO')),
    ('W 180 110e', 'write DEV_CHAR: device 08, attached, may interrupt, sends a byte'),
    ('W 140 3', 'write IBI_CONFIG: IBI_CONFIG_ENABLE, IBI_CONFIG_LISTEN'),
    ('I 8 5a', 'interrupt request of 08 with 5a: interrupt from 08, byte 5a, sync 0'),
    ('W 0d4 211', 'write CMD_FIFO: private read from 08, 2 bytes'),
    ('S', 'start: private read from 08, 2 bytes (call 7)'),
    ('X 12', 'receive 12: byte 1 of 2'),
    ('F 0', 'finish with no error: receipt no error, 1 byte moved, sync 0; private read from 08, '
     '2 bytes (call 7); put into SDI: 12000000'),
    ('R 0e0', 'read SDI_FIFO: bytes 12 00 00 00; byte 1 and padding of private read from 08, 2 '
     'bytes (call 7)'),
    ('R 0e0', 'read SDI_FIFO', old_word('SDI_FIFO', 11)),
    ('R 0e4', 'read IBI_FIFO: interrupt from 08, byte 5a, sync 0'),
    ('R 0d8', 'read CMDR_FIFO: no error, 1 byte moved, sync 0; private read from 08, 2 bytes '
     '(call 7)'),
    ('R 0e0', 'read SDI_FIFO', old_word('SDI_FIFO', 11)),
    ('R 0e4', 'read IBI_FIFO', old_word('IBI_FIFO', 13)),
    ('R 0d8', 'read CMDR_FIFO', old_word('CMDR_FIFO', 14)),
    ('W 0d8 0', 'write CMDR_FIFO: 00000000', dropped(Number.DROPPED_READ_ONLY)),
    ('W 40 0', 'write ENABLE: release'),
    ('R 0d8', 'read CMDR_FIFO', old_word('CMDR_FIFO', 14)),
    ('W 40 1', 'write ENABLE: reset and hold'),
    ('R 0d8', 'read CMDR_FIFO', none_read('CMDR_FIFO')),
    ('W 40 0', 'write ENABLE: release'),
    ('R 0e0', 'read SDI_FIFO', none_read('SDI_FIFO')),
    ('W 0d4 10', 'write CMD_FIFO: private write to 08, 0 bytes'),
    ('S', 'start: private write to 08, 0 bytes (call 25)'),
    ('F 0', 'finish with no error: receipt no error, 0 bytes moved, sync 0; private write to 08, '
     '0 bytes (call 25)'),
    ('R 0d8', 'read CMDR_FIFO: no error, 0 bytes moved, sync 0; private write to 08, 0 bytes '
     '(call 25)'),
    ('R 0d8', 'read CMDR_FIFO', old_word('CMDR_FIFO', 28)),
]
# Watermarks: sources that turn, those that do not, and values that are dropped.
MARKS_TOLD = [
    ('R 200', 'read CMD_WATERMARK: 1 word'),
    ('W 200 0', 'write CMD_WATERMARK: 0 words; CMD_ALMOST_EMPTY turns off'),
    ('R 088', 'read IRQ_SOURCE: SDO_ALMOST_EMPTY'),
    ('W 200 5', 'write CMD_WATERMARK: 5 words',
     dropped(Number.WATERMARK_ABOVE_CAPACITY, 'CMD has a capacity of 4 words, its watermark stays 0')),
    ('W 200 50004', 'write CMD_WATERMARK: 4 words; CMD_ALMOST_EMPTY turns on'),
    ('W 200 3', 'write CMD_WATERMARK: 3 words'),
    ('W 210 0', 'write IBI_WATERMARK: 0 words'),
    ('W 40 0', 'write ENABLE: release'),
    ('W 180 110e', 'write DEV_CHAR: device 08, attached, may interrupt, sends a byte'),
    ('W 140 3', 'write IBI_CONFIG: IBI_CONFIG_ENABLE, IBI_CONFIG_LISTEN'),
    ('I 8 5a', 'interrupt request of 08 with 5a: interrupt from 08, byte 5a, sync 0'),
    ('W 210 1', 'write IBI_WATERMARK: 1 word; IBI_ALMOST_FULL turns off'),
    ('W 210 ffff', 'write IBI_WATERMARK: 65535 words',
     dropped(Number.WATERMARK_ABOVE_CAPACITY, 'IBI has a capacity of 4 words, its watermark stays 1')),
    ('W 210 0', 'write IBI_WATERMARK: 0 words; IBI_ALMOST_FULL turns on'),
    ('R 088', 'read IRQ_SOURCE: CMD_ALMOST_EMPTY, SDO_ALMOST_EMPTY, IBI_ALMOST_FULL, IBI_PENDING'),
    ('W 202 0', 'write offset 0202: 00000000', dropped(Number.NO_REGISTER, 'not a multiple of 4')),
    ('W 214 0', 'write offset 0214: 00000000', dropped(Number.NO_REGISTER, 'not in the map')),
]
# Data words: a write of five bytes and one of three, a burst between, a refused write of nine bytes
# with two words there, a read of six, an assignment with a wrong word, resets in it and in a write,
# a read that is open.
DATA_TOLD = [
    ('W 40 0', 'write ENABLE: release'),
    ('W 180 1102', 'write DEV_CHAR: device 08, attached'),
    ('W 0dc 11121314', 'write SDO_FIFO: bytes 11 12 13 14'),
    ('W 0dc 15000000', 'write SDO_FIFO: bytes 15 00 00 00'),
    ('W 0d4 510', 'write CMD_FIFO: private write to 08, 5 bytes'),
    ('S', 'start: private write to 08, 5 bytes (call 5)'),
    ('T', 'send: 11, byte 1 of 5; taken from SDO: 11121314 (call 3)'),
    ('T', 'send: 12, byte 2 of 5'),
    ('R 0c8', 'read SDO_FIFO_ROOM: room for 3 words'),
    ('T', 'send: 13, byte 3 of 5'),
    ('T', 'send: 14, byte 4 of 5'),
    ('T', 'send: 15, byte 5 of 5; taken from SDO: 15000000 (call 4)'),
    ('T', 'send', refused(Number.LENGTH_REACHED, 'private write, 5 of 5 bytes moved')),
    ('F 0', 'finish with no error: receipt no error, 5 bytes moved, sync 0; private write to 08, '
     '5 bytes (call 5); sent for it: 11121314 (call 3), 15000000 (call 4, first byte)'),
    ('W 2c0 110', 'write OFFLOAD_CMD[0]: private write to 08, 1 byte'),
    ('W 2c4 411', 'write OFFLOAD_CMD[1]: private read from 08, 4 bytes'),
    ('W 2c8 110', 'write OFFLOAD_CMD[2]: private write to 08, 1 byte'),
    ('W 300 a5000000', 'write OFFLOAD_SDO[0]: bytes a5 00 00 00'),
    ('W 100 7', 'write OPS: offload mode, offload length 3, speed 0'),
    ('W 0d4 310', 'write CMD_FIFO: private write to 08, 3 bytes'),
    ('W 0dc 21222300', 'write SDO_FIFO: bytes 21 22 23 00'),
    ('G', 'trigger: a burst of 3 commands'),
    ('T', 'send: a5, byte 1 of 1'),
    ('F 0', 'finish with no error: command 1 of the burst is next'),
    ('X a', 'receive 0a: byte 1 of 4'),
    ('X b', 'receive 0b: byte 2 of 4'),
    ('X c', 'receive 0c: byte 3 of 4'),
    ('X d', 'receive 0d: byte 4 of 4'),
    ('F 0', 'finish with no error: word 0 of the output is 0a0b0c0d, command 2 of the burst is '
     'next'),
    ('F 6', 'finish with NACK: the burst is done'),
    ('W 100 0', 'write OPS: direct mode, offload length 0, speed 0'),
    ('S', 'start: private write to 08, 3 bytes (call 20)'),
    ('T', 'send: 21, byte 1 of 3; taken from SDO: 21222300 (call 21)'),
    ('T', 'send: 22, byte 2 of 3'),
    ('T', 'send: 23, byte 3 of 3'),
    ('F 0', 'finish with no error: receipt no error, 3 bytes moved, sync 1; private write to 08, '
     '3 bytes (call 20); sent for it: 21222300 (call 21, first 3 bytes)'),
    ('W 0dc 31323334', 'write SDO_FIFO: bytes 31 32 33 34'),
    ('W 0dc 35363738', 'write SDO_FIFO: bytes 35 36 37 38'),
    ('W 0d4 912', 'write CMD_FIFO: private write to 09, 9 bytes'),
    ('S', 'start: private write to 09, 9 bytes (call 39)'),
    ('T', 'send', refused(Number.NOT_ATTACHED, 'it was not when the transfer opened')),
    ('F 8', 'finish with unknown address: receipt unknown address, 0 bytes moved, sync 2; private '
     'write to 09, 9 bytes (call 39); removed from SDO for it: 31323334 (call 37), '
     '35363738 (call 38)'),
    ('W 0d4 611', 'write CMD_FIFO: private read from 08, 6 bytes'),
    ('S', 'start: private read from 08, 6 bytes (call 43)'),
    ('X 41', 'receive 41: byte 1 of 6'),
    ('X 42', 'receive 42: byte 2 of 6'),
    ('X 43', 'receive 43: byte 3 of 6'),
    ('X 44', 'receive 44: byte 4 of 6; put into SDI: 41424344'),
    ('R 0e0', 'read SDI_FIFO: bytes 41 42 43 44; bytes 1 to 4 of private read from 08, 6 bytes '
     '(call 43)'),
    ('X 45', 'receive 45: byte 5 of 6'),
    ('X 46', 'receive 46: byte 6 of 6'),
    ('F 0', 'finish with no error: receipt no error, 6 bytes moved, sync 3; private read from 08, '
     '6 bytes (call 43); put into SDI: 45460000'),
    ('R 0e0', 'read SDI_FIFO: bytes 45 46 00 00; bytes 5 to 6 and padding of private read from 08, '
     '6 bytes (call 43)'),
    ('W 0d4 400000', 'write CMD_FIFO: first word of a CCC'),
    ('W 0d4 7', 'write CMD_FIFO: second word of a CCC, ENTDAA'),
    ('S', 'start: ENTDAA (call 54)'),
    ('D 1 2', 'address request with 00000001 00000002'),
    ('A', 'address take', refused(Number.SDO_EMPTY)),
    ('W 0dc 11000000', 'write SDO_FIFO: address 08, parity wrong'),
    ('A', 'address take: address 08; taken from SDO: 11000000 (call 59)',
     taken(Number.WRONG_PARITY)),
    ('W 0dc 10000000', 'write SDO_FIFO: address 08, parity right'),
    ('A', 'address take: address 08; taken from SDO: 10000000 (call 61)'),
    ('R 0e0', 'read SDI_FIFO: bytes 00 00 00 01; first word of the address request of call 57'),
    ('R 0e0', 'read SDI_FIFO: bytes 00 00 00 02; second word of the address request of call 57'),
    ('D 3 4', 'address request with 00000003 00000004'),
    ('W 40 1', 'write ENABLE: reset and hold'),
    ('W 0dc 5', 'write SDO_FIFO: bytes 00 00 00 05', dropped(Number.HELD_IN_RESET)),
    ('W 40 0', 'write ENABLE: release'),
    ('W 0dc 51525354', 'write SDO_FIFO: bytes 51 52 53 54'),
    ('W 0dc 55565758', 'write SDO_FIFO: bytes 55 56 57 58'),
    ('W 0d4 810', 'write CMD_FIFO: private write to 08, 8 bytes'),
    ('S', 'start: private write to 08, 8 bytes (call 71)'),
    ('T', 'send: 51, byte 1 of 8; taken from SDO: 51525354 (call 69)'),
    ('W 40 1', 'write ENABLE: reset and hold'),
    ('W 40 0', 'write ENABLE: release'),
    ('W 0dc 61626364', 'write SDO_FIFO: bytes 61 62 63 64'),
    ('W 0dc 65666768', 'write SDO_FIFO: bytes 65 66 67 68'),
    ('W 0d4 110', 'write CMD_FIFO: private write to 08, 1 byte'),
    ('S', 'start: private write to 08, 1 byte (call 78)'),
    ('T', 'send: 61, byte 1 of 1; taken from SDO: 61626364 (call 76)'),
    ('F 0', 'finish with no error: receipt no error, 1 byte moved, sync 0; private write to 08, '
     '1 byte (call 78); sent for it: 61626364 (call 76, first byte)'),
    ('W 0d4 911', 'write CMD_FIFO: private read from 08, 9 bytes'),
    ('S', 'start: private read from 08, 9 bytes (call 82)'),
    ('X 71', 'receive 71: byte 1 of 9'),
    ('X 72', 'receive 72: byte 2 of 9'),
    ('X 73', 'receive 73: byte 3 of 9'),
    ('X 74', 'receive 74: byte 4 of 9; put into SDI: 71727374'),
    ('X 75', 'receive 75: byte 5 of 9'),
]
# What the reads of the table of empty queues show.
EMPTY_READS = '0 0 12000000 12000000 105a00 100 12000000 105a00 100 100 0 0 0 0'.split()
# The end of the first log.
SUMMARY = '''commands taken: 4; started: 4; finished: 3; receipts read: 1
  call 24, private read from 09, 1 byte: no receipt read, lost by the reset of call 45
  call 28, direct CCC 8b write to 08, 2 bytes: no receipt read, lost by the reset of call 45
  call 38, ENTDAA: no receipt read, lost by the reset of call 45
data words written to SDO: 3; dropped: 1; sent: 1; removed: 0; taken as addresses: 1; waiting: 0; \
lost in resets: 0
  call 46, 00000001: dropped, held in reset
  call 10, a1b2c300: first 3 bytes sent by calls 14, 17, 18, bytes 1 to 3 of private write to 08, \
3 bytes, broadcast header, repeated start (call 11); the rest dropped by its finish, call 20
  call 42, 11000000: taken as an address by call 43 for ENTDAA (call 38), wrong parity
data words put into SDI: 2; read: 0; waiting: 0; lost in resets: 2
  call 41, 00000001: first word of the address request of call 41; lost by the reset of call 45
  call 41, 00000002: second word of the address request of call 41; lost by the reset of call 45
'''
FAILED = '''commands taken: 4; started: 4; finished: 4; receipts read: 1
  call 9, private write to 08, 2 bytes: its receipt waits in CMDR since call 13
  call 16, private write to 09, 9 bytes: its receipt waits in CMDR since call 18
  call 20, private read from 08, 4 bytes: its receipt waits in CMDR since call 22
data words written to SDO: 5; dropped: 0; sent: 1; removed: 3; taken as addresses: 0; waiting: 1; \
lost in resets: 0
  call 4, a5c30000: first 2 bytes sent by calls 11 to 12, bytes 1 to 2 of private write to 08, 2 \
bytes (call 9); the rest dropped by its finish, call 13
  call 3, 01d00000: removed by the finish of call 7 for private write to 08, 2 bytes (call 5)
  call 14, 11111111: removed by the finish of call 18 for private write to 09, 9 bytes (call 16)
  call 15, 22222222: removed by the finish of call 18 for private write to 09, 9 bytes (call 16)
  call 19, 33333333: waits in SDO
data words put into SDI: 0
'''
EMPTIED = '''commands taken: 2; started: 2; finished: 2; receipts read: 2
data words written to SDO: 0
data words put into SDI: 1; read: 1; waiting: 0; lost in resets: 0
'''
NO_COMMANDS = '''commands taken: 0; started: 0; finished: 0; receipts read: 0
data words written to SDO: 0
data words put into SDI: 0
'''
# The lone first word of a CCC is no command yet.
PART = '''commands taken: 1; started: 1; finished: 0; receipts read: 0
  call 19, private read from 09, 1 byte: no receipt yet, open since call 20 (private read, 0 of 1 \
byte moved)
  call 23, first word of a CCC: no receipt yet, queued, its second word is missing
data words written to SDO: 0
data words put into SDI: 0
'''
SDO_COUNTS = '''data words written to SDO: 12; dropped: 1; sent: 5; removed: 2; taken as \
addresses: 2; waiting: 1; lost in resets: 1
'''
SDI_COUNTS = 'data words put into SDI: 7; read: 4; waiting: 1; lost in resets: 2\n'
# The data words of the last table, as they were written, and as they came.
SDO_WORDS = '''\
  call 3, 11121314: sent by calls 7, 8, 10, 11, bytes 1 to 4 of private write to 08, 5 bytes \
(call 5)
  call 4, 15000000: first byte sent by call 12, byte 5 of private write to 08, 5 bytes (call 5); \
the rest dropped by its finish, call 14
  call 21, 21222300: first 3 bytes sent by calls 33 to 35, bytes 1 to 3 of private write to 08, 3 \
bytes (call 20); the rest dropped by its finish, call 36
  call 37, 31323334: removed by the finish of call 42 for private write to 09, 9 bytes (call 39)
  call 38, 35363738: removed by the finish of call 42 for private write to 09, 9 bytes (call 39)
  call 59, 11000000: taken as an address by call 60 for ENTDAA (call 54), wrong parity
  call 61, 10000000: taken as an address by call 62 for ENTDAA (call 54)
  call 67, 00000005: dropped, held in reset
  call 69, 51525354: first byte sent by call 73, byte 1 of private write to 08, 8 bytes (call 71); \
the rest lost by the reset of call 74
  call 70, 55565758: lost by the reset of call 74
  call 76, 61626364: first byte sent by call 80, byte 1 of private write to 08, 1 byte (call 78); \
the rest dropped by its finish, call 81
  call 77, 65666768: waits in SDO
'''.splitlines(keepends=True)
SDI_WORDS = '''\
  call 48, 41424344: bytes 1 to 4 of private read from 08, 6 bytes (call 43); read by call 49
  call 52, 45460000: bytes 5 to 6 and padding of private read from 08, 6 bytes (call 43); read by \
call 53
  call 57, 00000001: first word of the address request of call 57; read by call 63
  call 57, 00000002: second word of the address request of call 57; read by call 64
  call 65, 00000003: first word of the address request of call 65; lost by the reset of call 66
  call 65, 00000004: second word of the address request of call 65; lost by the reset of call 66
  call 87, 71727374: bytes 1 to 4 of private read from 08, 9 bytes (call 82); waits in SDI
'''.splitlines(keepends=True)
# Without --data those that were not just sent or read, by what became of them.
DATA = ''.join([SDO_COUNTS, *(SDO_WORDS[place] for place in (7, 1, 2, 8, 10, 3, 4, 5, 11, 9)),
                SDI_COUNTS, *(SDI_WORDS[place] for place in (6, 4, 5))])
LONG_LISTS = '''data words written to SDO: 21; dropped: 0; sent: 11; removed: 0; taken as \
addresses: 0; waiting: 10; lost in resets: 0
  call 12, 00000019: first 2 bytes sent by calls 62 to 63, bytes 37 to 38 of private write to 08, \
38 bytes (call 24); the rest dropped by its finish, call 64
  call 13, 0000001a: first 2 bytes sent by calls 67 to 68, bytes 1 to 2 of private write to 08, 5 \
bytes (call 65); the write is open
%s  and 2 more
data words put into SDI: 0
''' % ''.join('  call %d, %08x: waits in SDO\n' % (14 + place, 0x1b + place) for place in range(8))
EVERY_WORD = ''.join([SDO_COUNTS, *SDO_WORDS, SDI_COUNTS, *SDI_WORDS])


def explained(*arguments, data, status=0):
    got, output, message = tool('explain', *arguments, data=data)
    equal('runs', arguments, (got, message), (status, b''))
    return output.decode()


def script_of(table):
    return '\n'.join(line for line, *_ in table).encode()


def words(_):
    """The words of each line, and of the end."""
    for table, options, end in ((TOLD, [], SUMMARY), (BURST_TOLD, ['--bursts'], NO_COMMANDS),
                                (CAUSES_TOLD, ['--bursts'], PART), (FAILED_TOLD, [], FAILED),
                                (EMPTY_TOLD, [], EMPTIED), (MARKS_TOLD, [], NO_COMMANDS),
                                (DATA_TOLD, ['--bursts'], DATA),
                                (DATA_TOLD, ['--bursts', '--data'], EVERY_WORD)):
        log = explained(*options, data=script_of(table))
        lines = iter(log.split('\n'))
        for line, *told in table:
            for place, text in enumerate(told):
                equal('words', '%s, line %d' % (line, place), next(lines)[41:], text)
        equal('words', 'end', log.endswith(end), True)


def answers_in(log):
    """Call number and answer of each row of a log."""
    rows = re.findall(r'^ *(\d+)  [A-Z][ 0-9a-f]{18}  ([0-9a-f]{8} \d\d)  ', log, re.MULTILINE)
    return [(int(number), answer) for number, answer in rows]


def logs(program):
    """The answers of the log, its reasons and its counts, on generated scripts; a trace is told as
    its script."""
    for seed in SEEDS:
        script = generated(seed, CALLS)
        model = Model.set_up()
        answers = [model.make(call) for call in session.calls(script)]
        log = explained('--skip', data=script)
        equal('logs', seed, answers_in(log),
              [(number, str(answer)) for number, answer in enumerate(answers, 1)])
        numbers = Counter(answer.number for answer in answers if answer.refused)
        told = re.findall(r'^ {41}(?:dropped|refused): (\d+), ', log, re.MULTILINE)
        equal('logs', seed, Counter(map(int, told)), numbers)
        counts = re.findall(r'^  (\d+), (.*): (\d+) times? \(', log, re.MULTILINE)
        equal('logs', seed, [(int(number), text, int(count)) for number, text, count in counts],
              [(number, MEANINGS[number], numbers[number]) for number in sorted(numbers)])
        equal('logs', seed, explained(data=pack(script)), log)
        summary = explained('--skip', '--summary', data=script)
        equal('logs', seed, log.endswith('\n\n' + summary), True)
        if program:
            _, output, _ = run([program], script)
            equal('answers of %s' % program, seed, output.decode().splitlines(),
                  [answer for _, answer in answers_in(log)])


def set_ups(script):
    """The set-ups of a script that are not refused, each as a model with the lines behind it."""
    found, rest = [], []
    for line in session.lines(script):
        if SET_UP_LINE.fullmatch(line):
            rest = []
            with contextlib.suppress(Refused):
                numbers = SetUp(*split(line)[1])
                found.append((Model.set_up(**numbers._asdict()), rest))
        else:
            rest.append(line)
    return found


def lent_calls(model, lines):
    """The calls of lines with bursts. Outputs are lent as the calls are made."""
    for line in lines:
        if lent(line) is not None:
            model.lend(lent(line))
        elif (call := inputs.call_in(line, bursts=True)) is not None:
            yield call


def runs(seed):
    """A session's script as it is made, and scripts with set-ups and bursts: models and calls."""
    model = Model.set_up()
    yield model, inputs.run(model, [session.calls(generated(seed, CALLS))])
    for model, lines in set_ups(generated(seed, TEST_CALLS, '--test')):
        yield model, inputs.run(model, [lent_calls(model, lines)])


def ledgers(_):
    """At every call the commands that wait are the words of CMD, those with an unread receipt are
    as many as CMDR has, one is open where a transfer is that is no burst's, and the data words are
    those of SDO and SDI. An empty queue shows what the call gave that is said to have read it. What
    is said of each data word is what the calls gave, and no call is left out (02 §13)."""
    removed, parts, lost, again, fates = Counter(), 0, 0, Counter(), Counter()
    for model, calls in itertools.chain.from_iterable(map(runs, SEEDS)):
        ledger, values, done = Ledger(), {None: 0}, {}
        for made in calls:
            about = ledger.follow(made)
            values[made.number] = made.answer.value
            if not made.answer.refused and not is_in_burst(made):
                done[made.number] = made
            if made.answer.number == Number.EMPTY:
                read = ledger.last_reads.get(made.call.offset)
                equal('ledgers', made.number, made.answer.value, values[read])
                again[made.call.offset, read is not None] += 1
            if about.entry and made.call.letter == 'F':
                removed[sum(isinstance(one.fate, Removed) for one in about.sdo)] += 1
            image, store = made.after, model.store()
            equal('ledgers', made.number, tuple(word for entry in ledger.waiting
                                                for word in entry.words),
                  image.queue('cmd', store))
            for queue, words in (('sdo', ledger.sdo.waiting), ('sdi', ledger.sdi.waiting)):
                equal('ledgers', made.number, tuple(one.word for one in words),
                      image.queue(queue, store))
            equal('ledgers', made.number, (len(ledger.unread), ledger.open is not None),
                  (image.levels.cmdr, image.transfer.phase != 0 and image.burst_place is None))
        entries = [*ledger.unread, *ledger.waiting, *ledger.lost]
        equal('ledgers', 'balance', ledger.taken,
              ledger.receipts_read + sum(entry.whole for entry in entries)
              + (ledger.open is not None))
        parts += sum(not entry.whole for entry in entries)
        lost += min(ledger.receipts_read, len(ledger.lost))
        sdo_words(ledger.sdo.words, done)
        sdi_words(ledger.sdi.words, done)
        fates.update(type(one.fate) for one in (*ledger.sdo.words, *ledger.sdi.words))
    equal('ledgers', 'something to count', lost > 10 * len(SEEDS), True)
    equal('ledgers', 'parts of commands', parts > 0, True)
    equal('ledgers', 'empty queues, with a word read and without', len(again), 6)
    equal('ledgers', 'words removed', min(removed[count] for count in range(5)) > 0, True)
    equal('ledgers', 'data words of each fate', len(fates), 7)


def is_in_burst(made):
    """Whether a call is an event of a burst's transfer."""
    return made.call.letter not in 'WR' and made.before.burst_place is not None


def answers_of(done, letter, offset=0):
    """The calls of a letter that were done: numbers and answers."""
    return [(number, made.answer) for number, made in done.items()
            if (made.call.letter, made.call.offset) == (letter, offset)]


def sdo_words(words, done):
    """Bytes sent, addresses taken, and how the finish ended that removed a word."""
    sent, addresses = [], []
    for one in words:
        match one.fate:
            case Sent(_, place, calls):
                leading = one.word.to_bytes(4, 'big')
                sent += [(call, (byte, 0)) for call, byte in zip(calls, leading)]
                equal('data words', one, [done[call].after.transfer.moved for call in calls],
                      [*range(place, place + len(calls))])
            case Address(_, call, wrong):
                addresses.append((call, (one.word >> 25, Number.WRONG_PARITY if wrong else 0)))
            case Removed(entry, call):
                equal('data words', one, (done[call].call.first in (4, 6, 8), entry.finished),
                      (True, call))
    equal('data words', 'sent', sent, answers_of(done, 'T'))
    equal('data words', 'addresses', addresses, answers_of(done, 'A'))


def sdi_words(words, done):
    """Words read, address requests, payloads of reads."""
    equal('data words', 'read', [(one.fate.call, (one.word, 0)) for one in words
                                 if isinstance(one.fate, Read)],
          answers_of(done, 'R', Register.SDI_FIFO))
    requests, found = [], defaultdict(bytes)
    for one in words:
        match one.source:
            case Request(call, second):
                requests.append((call, second, one.word))
            case Payload(entry, place, count):
                put = done[one.put]
                equal('data words', one, (place % 4, place + count - 1),
                      (1, put.before.transfer.moved + (put.call.letter == 'X')))
                found[entry.started] += one.word.to_bytes(4, 'big')
    equal('data words', 'requests', requests, [
        (call, second, done[call].call[2 + second])
        for call, _ in answers_of(done, 'D') for second in (False, True)])
    equal('data words', 'payloads', found, payloads(done))


def payloads(done):
    """The whole words of each payload received, by the call that started its read; what fills none
    is padded at the finish."""
    found, started = defaultdict(bytes), 0
    for number, made in done.items():
        if made.call.letter == 'S':
            started = number
        elif made.call.letter == 'X':
            found[started] += bytes([made.call.first])
        elif made.call.letter == 'F' and started in found:
            found[started] += bytes(-len(found[started]) % 4)
    whole = {started: payload[:len(payload) // 4 * 4] for started, payload in found.items()}
    return {started: payload for started, payload in whole.items() if payload}


def data_ends(_):
    """Counts and lists at the end, with bursts and with other set-ups: --data has a line for each
    word, and as many wait as the bank has."""
    for seed, numbers in zip(SEEDS, OTHER_SET_UPS, strict=True):
        script, model = generated(seed, TEST_CALLS, '--test'), Model.set_up(**numbers)
        for call in inputs.script_sections(script, skip=True, bursts=True)[0]:
            model.make(call)
        options = ['--%s=%d' % (name.replace('_', '-'), number) for name, number in numbers.items()]
        end = explained('--skip', '--bursts', '--summary', '--data', *options, data=script)
        told = re.findall(DATA_COUNTS, end, re.MULTILINE)
        equal('data ends', 'lines', len(told), 2)
        for (counts, words), level in zip(told, (model.levels().sdo, model.levels().sdi)):
            total, *fates = map(int, re.findall(r': (\d+)', counts))
            equal('data ends', counts, (sum(fates), words.count('\n')), (total, total))
            equal('data ends', counts, ('waiting: %d;' % level in counts,
                                        words.count(' waits in ')), (True, level))


def long_lists(_):
    """Of many words eight are named and the rest counted. The last write is open."""
    words = b''.join(b'W dc %x\n' % word for word in range(0x10, 0x25))
    script = b'W 40 0\nW 180 1102\n' + words + b'W d4 2610\nS\n' + b'T\n' * 0x26 + b'F 0\n'
    log = explained('--sdo=32', data=script + b'W d4 510\nS\nT\nT\n')
    equal('long lists', 'sent', '; sent for it: %s, and 2 more\n' % eight(0x10, 3) in log, True)
    equal('long lists', 'end', log[log.index('data words'):], LONG_LISTS)
    log = explained('--sdo=32', data=script + b'W d4 2412\nS\nF 8\n')
    equal('long lists', 'removed',
          '; removed from SDO for it: %s, and 1 more\n' % eight(0x1a, 13) in log, True)


def eight(word, call):
    """Eight words as a row names them, with the calls that wrote them."""
    return ', '.join('%08x (call %d)' % (word + place, call + place) for place in range(8))


def sources(_):
    """The source that a watermark is said to turn is the one that the register shows to have
    turned; and any other write is said to turn none."""
    turns = Counter()
    for seed in SEEDS:
        model = Model.set_up()
        before = model.source()
        for made in inputs.run(model, [session.calls(generated(seed, CALLS))]):
            moved, before = model.source() ^ before, model.source()
            if made.call.letter != 'W' or made.answer.refused:
                continue
            text = ''
            if made.call.offset in wording.MARKED and moved:
                text = '%s turns %s' % (wording.bits(moved), 'on' if moved in before else 'off')
            equal('sources', made.number, wording.turned(made), text)
            turns[text] += 1
    equal('sources', 'each turned on and off', len(turns), 2 * 5 + 1)


def differences(_):
    """One wrong read is found where it lies, in both forms; of two the first."""
    with tempfile.TemporaryDirectory() as folder:
        path = pathlib.Path(folder) / 'recorded'
        script, source = generated(2, CALLS), Source(7)
        model = Model.set_up()
        calls = [(number, call, model.make(call)) for number, call
                 in enumerate(session.calls(script), 1)]
        reads = [row for row in calls if row[1].letter == 'R']
        for rows, form in ((reads, lambda answer: '%x' % answer.value),
                           (reads, lambda answer: '0x%08X' % answer.value), (calls, str)):
            right = [form(answer) for _, _, answer in rows]
            find(path, script, right, 'no difference')
            for _ in range(PLACES):
                places = sorted({source.below(len(rows)), source.below(len(rows))})
                wrong = list(right)
                for place in places:
                    wrong[place] = other(rows[place][2], form)
                number, call, answer = rows[places[0]]
                shown = str(answer) if form is str else '%08x' % answer.value
                find(path, script, wrong, 'first difference: call %d, %s: the model has %s, the '
                     'recording has ' % (number, session.line_of(call), shown))
            number, call, _ = rows[-1]
            find(path, script, right[:-1], 'call %d, %s: the model has ' % (
                number, session.line_of(call)))
            find(path, script, right + [right[0]] * 2, 'after the last call: the recording has 2 ')
        # A number alone, of a call that is no read.
        wrong = [str(answer) for _, _, answer in calls]
        wrong[0] = wrong[0][:9] + '29'
        find(path, script, wrong, 'first difference: call 1, ')


def other(answer, form):
    return form(answer._replace(value=answer.value ^ 0x100))


def find(path, script, lines, text):
    path.write_text('\n'.join(lines) + '\n')
    status = 0 if text == 'no difference' else 1
    summary = explained('--skip', '--summary', '--recorded', path, data=script, status=status)
    equal('differences', text, summary[summary.rindex('\nrecording'):].count(text), 1)


def empty_reads(_):
    """A bench that reads the last word again of an empty queue agrees; one that reads 0 differs,
    and the line says where the model's value is from."""
    with tempfile.TemporaryDirectory() as folder:
        path = pathlib.Path(folder) / 'recorded'
        find(path, script_of(EMPTY_TOLD), EMPTY_READS, 'no difference')
        read = [number for number, (line, *_) in enumerate(EMPTY_TOLD, 1) if line[0] == 'R']
        for place, (number, value) in enumerate(zip(read, EMPTY_READS)):
            line, *told = EMPTY_TOLD[number - 1]
            if told[-1].startswith('refused: '):
                wrong = list(EMPTY_READS)
                wrong[place] = '0' if value != '0' else '1'
                find(path, script_of(EMPTY_TOLD), wrong, 'first difference: call %d, R 0%s: the '
                     'model has %08x, the recording has %08x; %s\n' % (
                         number, line[2:], int(value, 16), int(wrong[place], 16),
                         told[-1].removeprefix('refused: ')))


def suspects(_):
    """The refused call before the difference is named."""
    script = b'W 40 0\nW d4 1\nW d4 1\nW d4 1\nW d4 1\nW d4 1\nR c0\nR 1\n'
    with tempfile.TemporaryDirectory() as folder:
        path = pathlib.Path(folder) / 'recorded'
        path.write_text('1\n0\n')
        log = explained('--recorded', path, data=script, status=1)
    equal('differences', 'suspect', log.endswith(
        'recording, first difference: call 7, R 00c0: the model has 00000000, the recording has '
        '00000001\n  refused last before it: call 6, write CMD_FIFO: private read from 00, 0 '
        'bytes: 1, %s (CMD has 4 of 4 words)\n' % MEANINGS[Number.DROPPED_FULL]), True)


if __name__ == '__main__':
    if len(sys.argv) > 2:
        sys.exit(__doc__)
    main('explain', [words, logs, ledgers, data_ends, long_lists, sources, differences, empty_reads,
                     suspects],
         sys.argv[1] if len(sys.argv) == 2 else None)
