//! Image, tables, store and output as the archive takes them, those that have one of any length, and
//! one call of each kind.

use crate::raw::{self, Tables};
use thymewax::registers;

/// What the memory around a call holds, so that a stray write is seen.
pub const FILL: u32 = 0xdead_beef;

/// A call as the archive takes it: letter, offset, two values.
pub type Numbers = [u32; 4];

pub const READ_VERSION: Numbers = [b'R' as u32, registers::VERSION as u32, 0, 0];
/// One of each.
pub const CALLS: [Numbers; 10] = [
    READ_VERSION,
    [b'W' as u32, registers::CMD_FIFO as u32, 0x0000_0110, 0],
    [b'S' as u32, 0, 0, 0],
    [b'T' as u32, 0, 0, 0],
    [b'X' as u32, 0, 0x5a, 0],
    [b'F' as u32, 0, 0, 0],
    [b'I' as u32, 0, 8, 0x5a],
    [b'D' as u32, 0, FILL, FILL],
    [b'A' as u32, 0, 0, 0],
    [b'G' as u32, 0, 0, 0],
];

pub fn number_of(answer: u64) -> u32 {
    (answer >> 32) as u32
}

/// The memory of one call, to be compared as one.
#[derive(Clone, PartialEq)]
pub struct Memory {
    pub image: Vec<u32>,
    pub tables: Tables,
    pub store: Vec<u32>,
    pub output: Vec<u32>,
}

impl Memory {
    /// Of a row of image, flags, commands and payloads; a flag is cut to its byte. A store that fits
    /// the capacities as far as they are in range, and an output for any burst.
    pub fn around(row: Vec<u32>) -> Memory {
        let capacities = row[..20].iter().step_by(4);
        let words: u32 = capacities.map(|capacity| *capacity.min(&1024)).sum();
        let (image, rest) = row.split_at(raw::image_words());
        let mut tables = Tables::CLEAR;
        for (flag, word) in tables.flags.iter_mut().zip(rest) {
            *flag = *word as u8;
        }
        tables.commands.copy_from_slice(&rest[128..144]);
        tables.payloads.copy_from_slice(&rest[144..160]);
        Memory {
            image: image.to_vec(),
            tables,
            store: vec![FILL; words as usize],
            output: vec![FILL; 16],
        }
    }

    /// Image, flags, commands and payloads in one row.
    #[allow(dead_code)]
    pub fn row(&self) -> Vec<u32> {
        let mut row = self.image.clone();
        row.extend(self.tables.flags.map(u32::from));
        row.extend(self.tables.commands);
        row.extend(self.tables.payloads);
        row
    }

    pub fn step(&mut self, numbers: Numbers) -> u64 {
        raw::step(
            &mut self.image,
            &mut self.tables,
            &mut self.store,
            &mut self.output,
            numbers,
        )
    }

    /// At most nine records of a section.
    #[allow(dead_code)]
    pub fn replay(&mut self, file: &[u8], section: u32, told: &mut [u32]) -> u32 {
        let (image, tables) = (&mut self.image, &mut self.tables);
        raw::replay(image, tables, &mut self.store, file, section, 9, told)
    }

    /// The call must be refused with this number, and leave no mark.
    pub fn refuses(&self, numbers: Numbers, number: u32) {
        let mut after = self.clone();
        assert_eq!(after.step(numbers), u64::from(number) << 32, "{numbers:x?}");
        assert!(after == *self, "{numbers:x?} left a mark");
    }

    /// A replay on words that are no image has each record answered 21 up to a wrong one or the
    /// limit, and leaves no mark; a wrong file is refused as always, and nothing is told.
    pub fn replays_nothing(&self) {
        let file = one_record();
        let wrong = [
            b"I3TR\x01\x00\x0e\0\0\0\x02\0\0\0",
            &file[14..],
            b"Q\0\0\0\0\0\0\0\0\0\0\0",
        ];
        for (file, section, limit, number, expected) in [
            (&file[..], 0, 9, 0, [1, 0, 21]),
            (&file, 0, 0, 0, [0, 0, 0]),
            (&wrong.concat(), 0, 9, 27, [1, 0, 21]),
            (&file[..3], 0, 9, 24, [FILL; 3]),
            (&file[..25], 0, 9, 25, [FILL; 3]),
            (&file, 1, 9, 26, [FILL; 3]),
        ] {
            let mut after = self.clone();
            let mut told = [FILL; 3];
            let (image, tables) = (&mut after.image, &mut after.tables);
            let store = &mut after.store;
            let made = raw::replay(image, tables, store, file, section, limit, &mut told);
            assert_eq!((made, told), (number, expected));
            assert!(after == *self, "a replay left a mark");
        }
    }
}

/// A trace of one section with one record: a register is written.
pub fn one_record() -> Vec<u8> {
    let mut file = b"I3TR\x01\x00\x0e\0\0\0\x01\0\0\0".to_vec();
    file.extend(b"W\0\x08\0\x55\0\0\0\0\0\0\0");
    file
}
