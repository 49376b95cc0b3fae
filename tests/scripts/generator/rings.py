"""Rings: each queue is filled past its end, turned, and emptied."""

from tests.scripts.bank import CMD, CMDR, LONGEST, SDI, SDO, TAKING_QUEUES
from tests.scripts.endings import NO_ERROR
from tests.scripts.generator.interrupts import Interrupts
from tests.scripts.generator.moves import ADDRESS_WORD, SMALL
from thymewax import Register


class Rings(Interrupts):
    """Full queues."""

    def rings(self):
        """Each ring is filled past its end, turned, and emptied."""
        self.interrupt_states()
        for part in (1, 2, 3):
            self.full_both(part)
        for queue in range(5):
            address = self.fresh()
            push, take = self.ring_calls(queue, address)
            size = self.guess.capacities[queue]
            if size > SMALL:
                self.turn_large(queue, push, take)
            else:
                self.turn_small(size, push, take)

    def full_both(self, part):
        """A finish with no room in CMDR and in SDI, then in SDI alone."""
        capacities = self.guess.capacities
        if max(capacities[CMDR], capacities[SDI]) > SMALL:
            return
        address = self.fresh()
        for _ in range(capacities[CMDR]):
            self.quick_receipt(address)
        length = 4 * capacities[SDI] + part
        self.open_transfer(address, length, True)
        for _ in range(length + 1):
            self.script.receive()
        for offset in (Register.CMDR_FIFO, Register.SDI_FIFO, Register.CMDR_FIFO):
            self.script.finish(NO_ERROR)
            self.script.read(offset)

    def turn_small(self, size, push, take):
        """Full with the head at each place."""
        for _ in range(size + 1):
            push()
        for _ in range(size + 1):
            take()
            push()
            push()
        for _ in range(size + 1):
            take()

    def turn_large(self, queue, push, take):
        """Full twice, the second time with the head further on."""
        size = self.guess.capacities[queue]
        count = 1 + self.source.below(size)
        self.repeat(queue, push, size + 1)
        self.repeat(queue, take, count)
        self.repeat(queue, push, count + 1)
        # One that is read is emptied, and read again.
        read = queue in TAKING_QUEUES.values()
        self.repeat(queue, take, size + 1 if read else 1 + self.source.below(40))

    def repeat(self, queue, action, count):
        """Reads IRQ_SOURCE at levels next to a watermark of a set-up."""
        size = self.guess.capacities[queue]
        marks = (0, 1, 2, size // 2 - 1, size // 2, size // 2 + 1, size - 2, size - 1, size)
        for _ in range(count):
            action()
            if self.guess.level(queue) in marks:
                self.script.read(Register.IRQ_SOURCE)

    def ring_calls(self, queue, address):
        """What pushes a word of the queue and what takes one."""
        script = self.script
        if queue == CMD:
            return (lambda: script.write(Register.CMD_FIFO, self.empty_write(address)),
                    self.take_command)
        if queue == CMDR:
            return (lambda: self.quick_receipt_or_refusal(address),
                    lambda: script.read(Register.CMDR_FIFO))
        if queue == SDO:
            self.open_transfer(address, LONGEST)
            return (lambda: script.write(Register.SDO_FIFO, self.source.word()), self.take_data)
        if queue == SDI:
            return self.received_ring(address)
        return (lambda: script.interrupt(address), lambda: script.read(Register.IBI_FIFO))

    def take_command(self):
        self.script.start()
        self.script.finish(NO_ERROR)
        self.script.read(Register.CMDR_FIFO)

    def quick_receipt_or_refusal(self, address):
        if self.guess.transfer:
            self.script.finish(NO_ERROR)
        else:
            self.quick_receipt(address)

    def take_data(self):
        for _ in range(4):
            self.script.send()

    def received_ring(self, address):
        """A small SDI is filled by bytes, a large one by address requests."""
        take = lambda: self.script.read(Register.SDI_FIFO)
        if self.guess.capacities[SDI] <= SMALL:
            self.open_transfer(address, LONGEST, True)
            return self.receive_word, take
        self.start_assignment()
        return self.request_half, take

    def receive_word(self):
        for _ in range(4):
            self.script.receive()

    def request_half(self):
        """Two words with every second push: request, then word and take."""
        if self.guess.request_is_open():
            self.script.write(Register.SDO_FIFO, ADDRESS_WORD | self.source.below(1 << 24))
            self.script.address_take()
        else:
            self.script.address_request()
