"""What a script has probably reached. It only steers the choice of lines; no answer is judged by
it."""

from collections import deque

from tests.scripts.bank import CMD, CMDR, IBI, LOCKED, SDI, SDO, Bank, Transfer, carried
from tests.scripts.endings import REQUEST_OPEN, REQUEST_SERVED
from thymewax import AddressWord, Ccc, Command, Register
from thymewax.formats import ENTDAA


class Planned(Transfer):
    """The transfer that is probably open; `goal` is how many bytes move before an ending is
    tried."""

    goal = None


class Guess(Bank):
    """A bank by the calls that were made. IBI and SDI are guessed too full at times; reads mend
    it."""

    def __init__(self, capacities):
        super().__init__()
        self.capacities = capacities
        self.hold()

    def level(self, queue):
        return (len(self.cmd), self.cmdr, len(self.sdo), self.sdi, self.ibi)[queue]

    # Accesses.

    def hold(self):
        self.held = True
        self.cmd = deque()
        self.sdo = deque()
        self.cmdr = self.sdi = self.ibi = 0
        self.transfer = None

    def write(self, offset, value):
        if self.in_burst() and offset in LOCKED:
            return
        if offset == Register.CMD_FIFO:
            if not self.held and len(self.cmd) < self.capacities[CMD]:
                self.cmd.append(value)
        elif offset == Register.SDO_FIFO:
            if not self.held and len(self.sdo) < self.capacities[SDO]:
                self.sdo.append(value)
        elif offset == Register.ENABLE:
            if value & 1:
                self.hold()
            self.held = bool(value & 1)
        else:
            self.store(offset, value)

    def read(self, offset):
        if offset == Register.CMDR_FIFO:
            self.cmdr = max(self.cmdr - 1, 0)
        elif offset == Register.SDI_FIFO:
            self.sdi = max(self.sdi - 1, 0)
        elif offset == Register.IBI_FIFO:
            self.ibi = max(self.ibi - 1, 0)

    # Starts.

    def waiting(self):
        """The whole command at the head of CMD."""
        if not self.cmd:
            return None
        if not Command.of(self.cmd[0]).ccc:
            return self.cmd[0], None
        return (self.cmd[0], self.cmd[1]) if len(self.cmd) > 1 else None

    def stuck(self):
        """ENTDAA waits behind data that only a reset takes away (`start.blocked`)."""
        command = self.waiting()
        return (bool(self.sdo) and command is not None and command[1] is not None
                and Ccc.of(command[1]).code == ENTDAA)

    def start(self, goal):
        command = self.waiting()
        if self.held or self.transfer or self.ops.offload or not command or self.stuck():
            return
        self.cmd.popleft()
        if command[1] is not None:
            self.cmd.popleft()
        self.transfer = Planned(*command, self.devices)
        self.transfer.goal = goal

    def trigger(self, lent):
        words = self.burst_words()
        refused = self.held or self.transfer or not self.ops.offload or not words
        if not refused and all(map(carried, words)) and lent >= self.burst_reads():
            self.open_in_burst(0)

    def open_in_burst(self, place):
        """The transfer at that place of the burst; its goal is still to be set."""
        self.transfer = None
        if place < self.ops.offload_length:
            self.transfer = Planned(self.offload_commands[place], None, self.devices, place)

    # In a transfer.

    def moving(self):
        """The open transfer, if a byte may still move."""
        transfer = self.transfer
        if transfer and transfer.attached and transfer.moved < transfer.length:
            return transfer
        return None

    def send(self):
        transfer = self.moving()
        if not transfer or not transfer.write:
            return
        if transfer.moved % 4 == 0 and transfer.place is None:
            if not self.sdo:
                return
            self.sdo.popleft()
        transfer.moved += 1

    def receive(self):
        transfer = self.moving()
        if not transfer or not transfer.read:
            return
        if transfer.moved % 4 == 3 and transfer.place is None:
            if self.sdi == self.capacities[SDI]:
                return
            self.sdi += 1
        transfer.moved += 1

    def finish(self, code):
        transfer = self.transfer
        if not transfer or code not in transfer.endings():
            return
        if transfer.place is not None:
            self.open_in_burst(transfer.place + 1)
            return
        part = 1 if transfer.read and transfer.part() else 0
        if self.cmdr == self.capacities[CMDR] or self.sdi + part > self.capacities[SDI]:
            return
        self.sdi += part
        self.cmdr += 1
        if transfer.removes(code):
            for _ in range(min(transfer.needed(), len(self.sdo))):
                self.sdo.popleft()
        self.transfer = None

    def interrupt(self):
        if not self.held and not self.transfer:
            self.ibi = min(self.ibi + 1, self.capacities[IBI])

    def request_is_open(self):
        return self.transfer is not None and self.transfer.requests == REQUEST_OPEN

    def address_request(self):
        transfer = self.transfer
        if not transfer or not transfer.entdaa or self.request_is_open():
            return
        if self.sdi + 2 <= self.capacities[SDI]:
            self.sdi += 2
            transfer.requests = REQUEST_OPEN

    def address_take(self):
        if self.request_is_open() and self.sdo:
            if AddressWord.of(self.sdo.popleft()).parity_right:
                self.transfer.requests = REQUEST_SERVED
