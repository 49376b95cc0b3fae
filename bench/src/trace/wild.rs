//! A list for the comparison of engines: calls of any kind in any order, many of them refused.

use super::file::Trace;
use super::{command, List, ENTDAA, FIRST_DEVICE, MARKS};
use crate::plain::offset;

impl List {
    /// A command word for one of the devices, most lengths small.
    fn any_command(&mut self) -> u32 {
        let device = FIRST_DEVICE + self.random.below(8);
        let length = match self.random.below(16) {
            0 => self.random.below(4096),
            _ => self.random.below(8),
        };
        let bits = self.random.below(8) << 20;
        bits | command(device, length) | self.random.below(2)
    }

    /// Mostly a mark near the small capacities; bits 31:16 are any.
    fn any_mark(&mut self) {
        let at = MARKS[self.random.below(5) as usize];
        let mark = match self.random.below(4) {
            0 => self.random.below(1026),
            _ => self.random.below(6),
        };
        let value = self.random.word() & 0xffff_0000 | mark;
        self.write(at, value);
    }

    fn any_write(&mut self) {
        let value = self.random.word();
        match self.random.below(32) {
            0..=8 => {
                let word = self.any_command();
                self.write(offset::CMD, word);
            }
            9..=12 => self.write(offset::CMD, [ENTDAA, 0x10, 0x90][(value % 3) as usize]),
            13..=22 => self.write(offset::SDO, value),
            23 => self.write(offset::DEV_CHAR, 8 << 9 | value & 0xffe | 0x100),
            24 => self.write(offset::IBI_CONFIG, value),
            25 if self.random.one_in(4) => self.write(offset::ENABLE, value),
            26 if self.random.one_in(8) => self.write(offset::OPS, value),
            27 => self.write(offset::OPS, 0),
            28 => self.write(value as u16 & 0x3ff, value),
            29 => self.write(offset::ENABLE, 0),
            30 => self.any_mark(),
            _ => self.register_write(),
        }
    }

    fn any_read(&mut self) {
        match self.random.below(8) {
            0..=1 => self.read(offset::CMDR),
            2..=3 => self.read(offset::SDI),
            4 => self.read(offset::IBI),
            5 => {
                let at = self.random.below(0x400) as u16;
                self.read(at);
            }
            _ => self.register_read(),
        }
    }

    fn any_call(&mut self) {
        let (v, w) = (self.random.word(), self.random.word());
        match self.random.below(32) {
            0..=9 => self.any_write(),
            10..=14 => self.any_read(),
            15..=18 => self.start(),
            19..=20 => self.event(b'T', 0, 0),
            21..=22 => self.event(b'X', w % 256, 0),
            23..=26 => self.event(
                b'F',
                [0, 0, 1, 4, 6, 8, v % 16, v % 256][(w % 8) as usize],
                0,
            ),
            27..=28 => self.event(b'I', 8 + v % 8 + w / 8 % 16 / 15 * 120, w % 256),
            29..=30 => self.event(b'D', v, w),
            _ => self.event(b'A', 0, 0),
        }
    }
}

pub fn list(count: usize, seed: u64) -> Trace {
    List::new(4, seed).rounds(count, List::any_call)
}
