//! Values of refused calls: none, but for the read of an empty queue.

use super::clause::{Clause, Findings};
use super::register::{CMDR, IBI, SDI};
use crate::engine::{Answer, Call};
use crate::number::{DONE, EMPTY, WRONG_PARITY};

/// The word read last from each queue that can be read, since the release; 0 before the
/// first (02 §5).
#[derive(Debug, Default)]
pub struct LastReads {
    cmdr: u32,
    sdi: u32,
    ibi: u32,
}

impl LastReads {
    /// That of the queue that the call reads, if it reads one.
    fn of_call(&mut self, call: &Call) -> Option<&mut u32> {
        match *call {
            Call::Read { offset: CMDR } => Some(&mut self.cmdr),
            Call::Read { offset: SDI } => Some(&mut self.sdi),
            Call::Read { offset: IBI } => Some(&mut self.ibi),
            _ => None,
        }
    }

    /// What was read counts, be it the right word or not: that has clauses of its own.
    pub fn judge(&mut self, call: &Call, answer: Answer, findings: &mut Findings) {
        let Answer { value, number } = answer;
        match (self.of_call(call), number) {
            (Some(last), DONE) => *last = value,
            (Some(last), EMPTY) => {
                let last = *last;
                findings.judge(Clause::EmptyReads, value == last, || {
                    format!("expected {last:08x}, which was read last, saw {value:08x}")
                });
            }
            _ => judge_value(answer, findings),
        }
    }
}

/// The answer of a call that reads no empty queue, or of a set-up (01, 'Numbers that come
/// back').
pub fn judge_value(answer: Answer, findings: &mut Findings) {
    let Answer { value, number } = answer;
    if number != DONE && number != WRONG_PARITY {
        findings.judge(Clause::RefusalsBare, value == 0, || {
            format!("expected value 0 with {number:02}, saw {value:08x}")
        });
    }
}
