//! Data words that SDO took: those sent, those that failed writes removed, those taken as
//! addresses, and those that still wait (02 §13).

use super::clause::{Clause, Findings};
use super::command::{Command, Kind};
use crate::engine::Answer;
use crate::number::{DONE, SDO_EMPTY, SDO_NOT_EMPTY, WRONG_PARITY};
use std::collections::VecDeque;

/// The words since the release, as they leave SDO: in the order written.
#[derive(Debug)]
pub struct SdoWords {
    /// Taken and not gone. Unknown once an event can't be tied to them.
    waiting: Option<VecDeque<u32>>,
    /// The word that left last for the open write.
    sent: u32,
    /// Those of its bytes that have not been sent.
    left: VecDeque<u8>,
    capacity: usize,
}

impl SdoWords {
    pub fn new(capacity: usize) -> SdoWords {
        SdoWords {
            waiting: Some(VecDeque::new()),
            sent: 0,
            left: VecDeque::new(),
            capacity,
        }
    }

    /// A write to SDO that was answered `DONE`. More words than its capacity can't wait in it.
    pub fn word_taken(&mut self, word: u32, findings: &mut Findings) {
        let Some(waiting) = &mut self.waiting else {
            return;
        };
        waiting.push_back(word);
        let level = waiting.len();
        let capacity = self.capacity;
        findings.judge(Clause::DataWaits, level <= capacity, || {
            format!("expected at most {capacity} data words waiting, saw word {level} taken")
        });
    }

    /// A send answered `DONE` for the open command. The first of each four needs a new word,
    /// the others have the bytes behind (01, 'Bus events').
    pub fn byte_sent(&mut self, value: u32, findings: &mut Findings) {
        let Some(waiting) = &mut self.waiting else {
            return;
        };
        if self.left.is_empty() {
            if let Some(word) = waiting.pop_front() {
                self.sent = word;
                self.left.extend(word.to_be_bytes());
            }
        }
        let expected = self.left.pop_front();
        let kept = expected.is_some_and(|byte| u32::from(byte) == value);
        let word = self.sent;
        findings.judge(Clause::DataSent, kept, || match expected {
            Some(byte) => format!("expected {byte:02x} of data word {word:08x}, saw {value:02x}"),
            None => format!("expected {SDO_EMPTY:02}, no data word waits, saw {value:02x}"),
        });
        if !kept {
            self.lose_track();
        }
    }

    /// An address take answered `DONE` or `WRONG_PARITY` for the open ENTDAA. The word is gone
    /// either way, and its top byte says which it is (01, 'Bus events').
    pub fn address_taken(&mut self, answer: Answer, findings: &mut Findings) {
        let Some(waiting) = &mut self.waiting else {
            return;
        };
        let word = waiting.pop_front();
        let expected = word.map(address_answer);
        let kept = expected == Some(answer);
        findings.judge(Clause::AddressesTaken, kept, || {
            let text = |answer: Answer| format!("{:08x} {:02}", answer.value, answer.number);
            let seen = text(answer);
            match (word, expected) {
                (Some(word), Some(expected)) => {
                    let expected = text(expected);
                    format!("expected {expected} for address word {word:08x}, saw {seen}")
                }
                _ => format!("expected {SDO_EMPTY:02}, no address word waits, saw {seen}"),
            }
        });
        if !kept {
            self.lose_track();
        }
    }

    /// A finish answered `DONE` outside a burst. The bytes behind the last one sent go nowhere;
    /// a failed write takes the words of its length with it (02 §2).
    pub fn finish(&mut self, code: u8, command: Option<Command>) {
        self.left.clear();
        let failed = matches!(code, 4 | 6 | 8);
        match command {
            Some(command) if failed && command.kind() == Kind::Write => {
                self.remove(command.commanded_length().div_ceil(4));
            }
            // How many words go is unknown.
            None if failed => self.lose_track(),
            _ => {}
        }
    }

    /// The oldest words, all of them if there are fewer.
    fn remove(&mut self, count: u32) {
        if let Some(waiting) = &mut self.waiting {
            let count = waiting.len().min(count as usize);
            waiting.drain(..count);
        }
    }

    /// An event took a word, or did not, for no command that has such events.
    pub fn lose_track(&mut self) {
        self.waiting = None;
    }

    /// A read of the room: with the words that wait it makes up the capacity (01, 'Register
    /// map').
    pub fn room(&self, room: u32, findings: &mut Findings) {
        let Some(waiting) = &self.waiting else {
            return;
        };
        let level = waiting.len();
        let capacity = self.capacity;
        let kept = level as u64 + u64::from(room) == capacity as u64;
        findings.judge(Clause::DataWaits, kept, || {
            format!("expected room {capacity} less {level} data words waiting, saw room {room}")
        });
    }

    /// A send or an address take answered `SDO_EMPTY`.
    pub fn refused_as_empty(&mut self, findings: &mut Findings) {
        self.said_empty(&format!("{SDO_EMPTY:02}"), findings);
    }

    /// An ENTDAA starts only with SDO empty (01, 'Bus events').
    pub fn entdaa_started(&mut self, findings: &mut Findings) {
        self.said_empty("ENTDAA started", findings);
    }

    /// After it SDO is taken to be empty, so that one lost word is reported once.
    fn said_empty(&mut self, seen: &str, findings: &mut Findings) {
        let Some(waiting) = &mut self.waiting else {
            return;
        };
        let level = waiting.len();
        findings.judge(Clause::DataWaits, level == 0, || {
            format!("expected {level} data words waiting, saw {seen}")
        });
        waiting.clear();
    }

    /// A start answered `SDO_NOT_EMPTY`.
    pub fn refused_as_not_empty(&self, findings: &mut Findings) {
        let Some(waiting) = &self.waiting else {
            return;
        };
        findings.judge(Clause::DataWaits, !waiting.is_empty(), || {
            format!("expected no data word waiting, saw start answered {SDO_NOT_EMPTY:02}")
        });
    }
}

/// What the take of an address word answers: bits 31:25, and whether bits 31:24 have an odd
/// count of ones (01, 'Bus events').
fn address_answer(word: u32) -> Answer {
    let odd = (word >> 24).count_ones() % 2 == 1;
    Answer {
        value: word >> 25,
        number: if odd { DONE } else { WRONG_PARITY },
    }
}

#[cfg(test)]
mod tests {
    use super::*;

    /// 01's three words, marked P, and the bounds.
    #[test]
    fn answers_of_address_words() {
        for (word, value, number) in [
            (0x1000_0000, 8, DONE),
            (0x1300_0000, 9, DONE),
            (0x1100_0000, 8, WRONG_PARITY),
            (0x0000_0000, 0, WRONG_PARITY),
            (0x01ff_ffff, 0, DONE),
            (0xfe00_0000, 0x7f, DONE),
            (0xff00_0001, 0x7f, WRONG_PARITY),
        ] {
            assert_eq!(address_answer(word), Answer { value, number });
        }
    }
}
