//! Reads of the room and the command words written after them.

use super::clause::{Clause, Findings};
use crate::engine::Answer;
use crate::number::DONE;

/// Room above 0 is a place for one word, up to the next write to CMD (00, demand 3).
#[derive(Debug)]
pub struct RoomReads {
    /// The room was read above 0 and no command word was written since.
    read_above_0: bool,
    /// Each command word since the release was written after such a read.
    each_word_after_read: bool,
}

impl RoomReads {
    pub fn new() -> RoomReads {
        RoomReads {
            read_above_0: false,
            each_word_after_read: true,
        }
    }

    pub fn read(&mut self, room: u32) {
        self.read_above_0 |= room > 0;
    }

    /// A command word was written; it was taken if it was answered `DONE`.
    pub fn word_written(&mut self, word: u32, answer: Answer, findings: &mut Findings) {
        let after_read = self.read_above_0;
        // A word that was refused was written too.
        self.read_above_0 = false;
        self.each_word_after_read &= after_read;
        let taken = answer.number == DONE;
        let number = answer.number;
        if after_read {
            findings.judge(Clause::TakenAfterRoom, taken, || {
                format!("expected word {word:08x} taken ({DONE:02}), saw {number:02}")
            });
        }
        if self.each_word_after_read {
            findings.judge(Clause::NoneMissing, taken, || {
                format!("expected each word so far taken, saw {word:08x} answered {number:02}")
            });
        }
    }
}
