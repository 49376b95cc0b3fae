//! The replay of a section of a trace file.

use super::call::Call;
use super::{file, Answer, Bank};

/// 02's number of a record that is not right.
pub const WRONG_RECORD: u32 = 27;

/// How many records were done, and the last one's answer.
#[derive(Clone, Copy, Debug, PartialEq, Eq)]
pub struct Ran {
    pub made: u32,
    pub answer: Answer,
}

impl Ran {
    /// No record was done.
    pub const NONE: Ran = Ran {
        made: 0,
        answer: Answer {
            value: 0,
            number: 0,
        },
    };
}

/// A replay's number, and what it did.
#[derive(Clone, Copy, Debug, PartialEq, Eq)]
pub struct Replay {
    pub number: u32,
    pub ran: Ran,
}

/// Makes the calls of a section, up to the first record that is not right.
pub fn replay(bank: &mut Bank, store: &mut [u32], file: &[u8], section: usize) -> Replay {
    let mut ran = Ran::NONE;
    let records = match file::section(file, section) {
        Ok(records) => records,
        Err(number) => return Replay { number, ran },
    };
    for record in records {
        let Some(call) = Call::of(record) else {
            let number = WRONG_RECORD;
            return Replay { number, ran };
        };
        ran.answer = bank.step(store, call);
        ran.made += 1;
    }
    Replay { number: 0, ran }
}
