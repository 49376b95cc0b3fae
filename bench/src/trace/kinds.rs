//! The list of one kind: as many calls of that kind as can be answered 0, with those it needs.
//!
//! | Letter | Each round | Share |
//! |---|---|---|
//! | W | pushes to CMD and SDO, as many writes of other registers, a reset when the queues are full | all |
//! | R | interrupts that fill IBI; for each its entry and seven registers read | 8/9 |
//! | S | command, start, finish 0; a reset when CMDR is full | 1/3 |
//! | T | a write of 4,092 bytes: an SDO word, four bytes sent | 4/5 |
//! | X | a read of 4,092 bytes: four bytes received, an SDI word read | 4/5 |
//! | F | as S, ending with 0, 6, 4 or 8 | 1/3 |
//! | I | interrupts that fill IBI, a reset | nearly all |
//! | D | an assignment: request, SDO word, take, until SDI is full; a reset | 1/3 |
//! | A | the same, with one take in five answered 19 | 1/3 |

use super::file::Trace;
use super::{command, List, CCC, ENTDAA, FIRST_DEVICE, READ, UNATTACHED};
use crate::plain::offset;

impl List {
    /// Pushes that fill CMD and SDO, as many other writes, and the reset that empties the two.
    fn only_writes(&mut self) {
        for _ in 0..self.cap {
            let word = self.random.word();
            self.write(offset::CMD, word);
            self.write_sdo(1);
            self.register_write();
            self.register_write();
        }
        self.reset();
    }

    /// Interrupts to fill IBI; for each its entry and seven registers read.
    fn mostly_reads(&mut self) {
        (0..self.cap).for_each(|_| self.interrupt());
        for _ in 0..self.cap {
            self.read(offset::IBI);
            (0..7).for_each(|_| self.register_read());
        }
        self.ibi = 0;
    }

    /// A command, start and finish 0, for a private write of no bytes; a reset where CMDR is full.
    fn starts(&mut self) {
        let device = self.device();
        self.write(offset::CMD, command(device, 0));
        self.start();
        self.finish(0);
        if self.cmdr == self.cap {
            self.reset();
        }
    }

    /// The same with endings of each code.
    fn finishes(&mut self) {
        let length = self.random.below(8);
        let device = self.device();
        let header = 1 << 21;
        let (word, code) = match self.random.below(4) {
            0 => (command(device, length) | READ, 0),
            1 => (command(device, length), 6),
            2 => (command(device, length) | header, 4),
            _ => (command(UNATTACHED, length), 8),
        };
        self.write(offset::CMD, word);
        self.start();
        self.finish(code);
        if self.cmdr == self.cap {
            self.reset();
        }
    }

    /// A private write of 4,092 bytes, each SDO word written ahead of its four bytes.
    fn sends(&mut self) {
        self.write(offset::CMD, command(FIRST_DEVICE, 4092));
        self.start();
        for _ in 0..1023 {
            self.write_sdo(1);
            self.send(4);
        }
        self.finish(0);
        self.empty_cmdr();
    }

    /// A private read of 4,092 bytes, each SDI word read after its four bytes.
    fn receives(&mut self) {
        self.write(offset::CMD, command(FIRST_DEVICE, 4092) | READ);
        self.start();
        for _ in 0..1023 {
            self.receive(4);
            self.read(offset::SDI);
        }
        self.finish(0);
        self.empty_cmdr();
    }

    /// Interrupts that fill IBI, and the reset that empties it.
    fn only_interrupts(&mut self) {
        (0..self.cap).for_each(|_| self.interrupt());
        self.reset();
    }

    /// An assignment with as many requests as SDI has room for, and the reset that ends it. Ahead of
    /// so many in four address words stands a wrong one.
    fn assignments(&mut self, wrong: u32) {
        self.write(offset::CMD, CCC);
        self.write(offset::CMD, ENTDAA);
        self.start();
        for _ in 0..self.cap / 2 {
            let parity = u32::from(self.random.below(4) < wrong);
            self.assign(parity);
        }
        self.reset();
    }
}

pub fn list(letter: u8, cap: u32, count: usize, seed: u64) -> Trace {
    let list = List::new(cap, seed);
    match letter {
        b'W' => list.rounds(count, List::only_writes),
        b'R' => list.rounds(count, List::mostly_reads),
        b'S' => list.rounds(count, List::starts),
        b'T' => list.rounds(count, List::sends),
        b'X' => list.rounds(count, List::receives),
        b'F' => list.rounds(count, List::finishes),
        b'I' => list.rounds(count, List::only_interrupts),
        b'D' => list.rounds(count, |list| list.assignments(0)),
        _ => list.rounds(count, |list| list.assignments(1)),
    }
}
