//! Records and trace files that 02, section 1, calls wrong, each in one part.

use super::file::{file_of, record, RECORD, START};
use super::LETTERS;
use std::ops::Range;

const BYTE: u32 = 0xff;

/// The most records of a file of one section that is not above 16 MiB.
const MOST_RECORDS: usize = ((16 << 20) - START) / RECORD;

/// The record of each letter with the most in each part. These are right.
pub fn greatest() -> [[u8; RECORD]; 9] {
    [
        record(b'W', u16::MAX, u32::MAX, 0),
        record(b'R', u16::MAX, 0, 0),
        record(b'S', 0, 0, 0),
        record(b'T', 0, 0, 0),
        record(b'X', 0, BYTE, 0),
        record(b'F', 0, BYTE, 0),
        record(b'I', 0, BYTE, BYTE),
        record(b'D', 0, u32::MAX, u32::MAX),
        record(b'A', 0, 0, 0),
    ]
}

/// Each letter other than the nine; for each of the nine each bit that must be 0, by itself.
pub fn records() -> Vec<[u8; RECORD]> {
    let others = (0..=u8::MAX).filter(|letter| !LETTERS.contains(letter));
    let mut wrong: Vec<_> = others.map(|letter| record(letter, 0, 0, 0)).collect();
    for most in greatest() {
        for (at, bit) in bits(1..RECORD).filter(|&(at, bit)| most[at] & bit == 0) {
            let mut record = record(most[0], 0, 0, 0);
            record[at] = bit;
            wrong.push(record);
        }
    }
    wrong
}

/// Each bit of some bytes, with its byte's place.
fn bits(places: Range<usize>) -> impl Iterator<Item = (usize, u8)> {
    places.flat_map(|at| (0..8).map(move |n| (at, 1 << n)))
}

/// The number of a file that is wrong or ends at this place of mark or contents.
fn number(at: usize) -> u32 {
    if at < 4 {
        24
    } else {
        25
    }
}

/// Files with their numbers, made of some records: each bit of mark and contents changed; cut short
/// at each place up to the first record, and by one byte; a byte too long; no section; 65; above
/// 16 MiB.
pub fn files(records: &[[u8; RECORD]]) -> Vec<(u32, Vec<u8>)> {
    let file = file_of(&[records]);
    let change = |(at, bit): (usize, u8)| {
        let mut file = file.clone();
        file[at] ^= bit;
        (number(at), file)
    };
    let cut = |len: usize| (number(len), file[..len].to_vec());
    let others = [
        [&file[..], &[0]].concat(),
        file_of(&[]),
        file_of(&[&[][..]; 65]),
        file_of(&[&vec![record(b'S', 0, 0, 0); MOST_RECORDS + 1]]),
    ];
    bits(0..START)
        .map(change)
        .chain((0..=START).chain([file.len() - 1]).map(cut))
        .chain(others.map(|file| (25, file)))
        .collect()
}
