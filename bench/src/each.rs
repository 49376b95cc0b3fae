//! A call for each record of a section, by the numbers of the record.

use bench::plain::call::RECORD;
use bench::plain::replay::{Ran, WRONG_RECORD};
use bench::plain::Answer;

/// The letter of the trigger: a call, but none that a record names.
const TRIGGER: u8 = b'G';

/// The calls, up to the first record that is not right. A call tests all of a record but its second
/// byte, and takes the trigger.
pub fn each(records: &[[u8; RECORD]], mut step: impl FnMut(u8, u16, u32, u32) -> Answer) -> Ran {
    let mut ran = Ran::NONE;
    for &[letter, zero, o0, o1, a0, a1, a2, a3, b0, b1, b2, b3] in records {
        if letter == TRIGGER || zero != 0 {
            break;
        }
        let answer = step(
            letter,
            u16::from_le_bytes([o0, o1]),
            u32::from_le_bytes([a0, a1, a2, a3]),
            u32::from_le_bytes([b0, b1, b2, b3]),
        );
        if answer.number == WRONG_RECORD {
            break;
        }
        ran.answer = answer;
        ran.made += 1;
    }
    ran
}
