"""Follows bus events of direct transfers, and interrupt requests."""

from tests.scripts.bank import CMD, CMDR, IBI, LONGEST, SDI, SDO, Transfer
from tests.scripts.endings import CE2, REQUEST_OPEN, REQUEST_SERVED, UNSENT
from tests.scripts.reached.bursts import Bursts
from tests.scripts.reached.followed import BURST, DIRECT, DONE
from tests.scripts.reached.situations import (AFTER_THE_START, COMMAND_TO, INTERRUPT_FROM,
                                              ROUND_THE_END, SDO_HAS_ALL, SDO_HAS_FEWER,
                                              SDO_HAS_MORE, failed_write)
from thymewax import Ccc, Command, Config, Number

# A direct CCC whose code is ENTDAA's but for the bit that says so.
DIRECT_7 = 0x87
SYNCS = 256


class Events(Bursts):
    """Bus events. Each gets its arguments, the value and the number of its answer."""

    # Starts.

    def call_S(self, _, number):
        if number in (Number.TRANSFER_OPEN, Number.NOT_IN_THIS_MODE):
            self.note_order('S', number, {Number.NOT_IN_THIS_MODE: self.ops.offload,
                                          Number.NO_COMMAND: not self.cmd})
        if number == Number.NO_COMMAND:
            self.note('no whole command, ' + ('CCC word alone' if self.cmd else 'CMD empty'))
        if number != DONE:
            return
        first = self.cmd.popleft()
        second = self.cmd.popleft() if Command.of(first).ccc else None
        self.taken[CMD] += 1 if second is None else 2
        if self.last_closed == BURST:
            self.note('direct transfer after a burst')
        self.transfer = Transfer(first, second, self.devices)
        self.request_refused = False
        self.queued_at_start = self.pushed[SDO]
        if self.transfer.by_device and self.transfer.attached:
            self.counts.addresses[COMMAND_TO, self.transfer.address] += 1
        self.note_command(Command.of(first), second)

    def note_command(self, command, second):
        if self.transfer.entdaa and command.length:
            self.note('ENTDAA with length above 0')
        if self.transfer.entdaa and command.read:
            self.note('ENTDAA with the read bit')
        if second is not None and Ccc.of(second).code == DIRECT_7:
            self.note('direct CCC with code 0x87')

    # Bytes.

    def note_byte(self, number):
        """What a send and a receive have in common."""
        transfer = self.transfer
        if number == Number.LENGTH_REACHED:
            self.note('length reached after bytes' if transfer.moved else 'length reached at 0')
        if not transfer or not transfer.by_device:
            return
        now = self.devices[transfer.address].attached
        burst, opened = ('burst, ', 'it opened') if self.in_burst() else ('', 'start')
        if number == DONE and not now:
            self.note('%sbyte moved, device detached since %s' % (burst, opened))
        if number == Number.NOT_ATTACHED and now:
            self.note('%sbyte refused, device attached since %s' % (burst, opened))

    def note_byte_order(self, letter, number, wrong_kind, last):
        """`last` is the number of the queue's test, and whether its condition holds."""
        transfer = self.transfer
        if number in (Number.NOT_ATTACHED, Number.NOT_THIS_KIND, Number.LENGTH_REACHED):
            self.note_order(letter, number, {
                Number.NOT_THIS_KIND: wrong_kind,
                Number.LENGTH_REACHED: transfer.moved == transfer.length, **last})

    def call_T(self, _, number):
        self.note_byte(number)
        transfer = self.transfer
        if transfer:
            needs = not transfer.part() and self.level(SDO) == 0
            self.note_byte_order('T', number, transfer.read, {Number.SDO_EMPTY: needs})
        if number == Number.SDO_EMPTY:
            self.note('SDO empty at a later word' if transfer.moved
                      else 'SDO empty at the first byte')
        if number == DONE:
            if self.in_burst():
                self.note_burst_send()
            elif not transfer.part():
                self.taken[SDO] += 1
            transfer.moved += 1

    def call_X(self, byte, _, number):
        self.note_byte(number)
        transfer = self.transfer
        if transfer:
            needs = transfer.moved % 4 == 3 and self.room(SDI) == 0
            self.note_byte_order('X', number, not transfer.read, {Number.NO_ROOM: needs})
        if number == Number.NO_ROOM:
            self.note('no room at the fourth byte')
        if number == DONE:
            transfer.moved += 1
            if self.in_burst():
                if transfer.moved == 4 and self.room(SDI) == 0:
                    self.note('burst, fourth byte received, SDI full')
            elif not transfer.part():
                self.push(SDI)

    # Endings.

    def call_F(self, code, _, number):
        if number == Number.OUT_OF_RANGE:
            self.note('finish code above 15, ' + self.phase())
        if number not in (DONE, Number.NO_ROOM, Number.ENDING_NOT_ALLOWED):
            return
        transfer = self.transfer
        if self.in_burst():
            self.counts.burst_endings[transfer.kind, transfer.state(), code, number] += 1
            if number == DONE:
                self.finish_in_burst(code)
            return
        self.counts.endings[transfer.kind, transfer.state(), code, number] += 1
        if number == Number.ENDING_NOT_ALLOWED:
            self.note_order('F', number, {Number.NO_ROOM: self.room(CMDR) == 0})
        gathered = transfer.read and transfer.part()
        if number == Number.NO_ROOM:
            self.note_no_room(gathered)
            if transfer.removes(code) and self.level(SDO):
                self.note('failed write, no room for its receipt, SDO not empty')
        if number == DONE:
            if code == CE2 and self.request_refused:
                self.note('ENTDAA ended with 4 after a refused request')
            self.remove(code)
            self.finish(gathered)

    def remove(self, code):
        """The payload of a failed write leaves SDO."""
        transfer, there = self.transfer, self.level(SDO)
        if not transfer.removes(code) or transfer.length == 0:
            if code in UNSENT and there:
                self.note('%s ended with %d, data stays in SDO' % (
                    'write of no bytes' if transfer.write else
                    'ENTDAA' if transfer.entdaa else 'read', code))
            return
        needed, size = transfer.needed(), self.capacities[SDO]
        removed = min(needed, there)
        case = failed_write(transfer.kind, code)
        self.note(case + (SDO_HAS_FEWER if there < needed else
                          SDO_HAS_MORE if there > needed else SDO_HAS_ALL))
        if self.taken[SDO] % size + removed > size:
            self.note(case + ROUND_THE_END)
            self.note('SDO of %d, words removed round the end' % size)
        if self.taken[SDO] + removed > self.queued_at_start:
            self.note(case + AFTER_THE_START)
        self.taken[SDO] += removed

    def note_no_room(self, gathered):
        receipt, word = self.room(CMDR) == 0, gathered and self.room(SDI) == 0
        if receipt and word:
            self.note('finish, no room in both')
        else:
            self.note('finish, no room in CMDR' if receipt
                      else 'finish, no room in SDI for a part word')

    def finish(self, gathered):
        if gathered:
            self.note('finish, part word pushed')
            self.push(SDI)
        elif self.transfer.part():
            self.note('finish, bytes left dropped')
        if self.level(SDO):
            self.note('finish, data stays in SDO')
        if self.ops.offload:
            self.note('finish in offload mode')
        if self.transfer.moved == LONGEST:
            self.note('read of 4,095 bytes' if self.transfer.read else 'write of 4,095 bytes')
        self.push(CMDR)
        self.transfer = None
        self.last_closed = DIRECT
        self.receipts += 1
        if self.receipts > SYNCS:
            self.note('receipt number above 256')

    # Interrupt requests.

    def call_I(self, address, byte, _, number):
        listens = self.config & Config.IBI_CONFIG_LISTEN
        enabled = self.config & Config.IBI_CONFIG_ENABLE
        if number in (Number.TRANSFER_OPEN, Number.NOT_HEARD, Number.NOT_ACKNOWLEDGED):
            device = self.devices[address]
            self.note_order('I', number, {
                Number.NOT_HEARD: not listens,
                Number.NOT_ACKNOWLEDGED: not (enabled and device.attached and device.may_interrupt),
                Number.NO_ROOM: self.room(IBI) == 0})
        if number == Number.OUT_OF_RANGE:
            self.note('interrupt above 127, ' + self.phase())
        elif number == Number.TRANSFER_OPEN:
            self.note('interrupt during ' + self.transfer.kind)
        elif number == Number.NOT_HEARD:
            self.note('interrupt not heard, enable %d' % bool(enabled))
        elif number == Number.NOT_ACKNOWLEDGED:
            self.note_not_acknowledged(enabled, self.devices[address])
        elif number == Number.NO_ROOM:
            self.note('interrupt, IBI full')
        elif number == DONE:
            self.counts.addresses[INTERRUPT_FROM, address] += 1
            self.interrupt(self.devices[address])

    def note_not_acknowledged(self, enabled, device):
        if not enabled:
            reason = 'enable 0'
        else:
            reason = 'may not interrupt' if device.attached else 'not attached'
        self.note('interrupt not acknowledged, ' + reason)

    def interrupt(self, device):
        self.note('interrupt stored with ' + ('its byte' if device.sends_byte else '0'))
        if self.ops.offload:
            self.note('interrupt stored in offload mode')
        self.push(IBI)
        self.interrupts += 1
        if self.interrupts > SYNCS:
            self.note('interrupt number above 256')

    # Address assignment.

    def call_D(self, first, second, _, number):
        if number == Number.NOT_THIS_KIND:
            self.note_order('D', number, {Number.NO_ROOM: self.room(SDI) < 2})
            if self.transfer.entdaa:
                self.note('address request while one is open')
        if number == Number.NO_ROOM:
            self.note('address request, SDI room %d' % self.room(SDI))
            self.request_refused = True
        if number == DONE:
            self.note('address request, SDO ' + ('not empty' if self.level(SDO) else 'empty'))
            self.push(SDI)
            self.push(SDI)
            self.transfer.requests = REQUEST_OPEN

    def call_A(self, _, number):
        if number == Number.NOT_THIS_KIND:
            self.note_order('A', number, {Number.SDO_EMPTY: self.level(SDO) == 0})
            if self.transfer.entdaa:
                self.note('address take with none open')
        if number == Number.SDO_EMPTY:
            self.note('address take, SDO empty')
        if number in (DONE, Number.WRONG_PARITY):
            self.taken[SDO] += 1
        if number == Number.WRONG_PARITY:
            self.note('wrong parity, SDO ' + ('not empty' if self.level(SDO) else 'then empty'))
        if number == DONE:
            self.note('address taken')
            self.transfer.requests = REQUEST_SERVED
