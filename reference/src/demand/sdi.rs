//! Data words that the bus put into SDI: those that the driver read and those still queued
//! (02 §13).

use super::clause::{Clause, Findings};
use crate::number::EMPTY;
use std::collections::VecDeque;

/// The words since the release, from the events that brought them.
#[derive(Debug)]
pub struct SdiWords {
    read: u64,
    /// Full words and padded ones that no read has given. Unknown once an event or a read
    /// can't be tied to them.
    queued: Option<VecDeque<u32>>,
    /// Bytes of the open read that fill no word yet; they are not in SDI.
    gathered: Vec<u8>,
    capacity: usize,
}

impl SdiWords {
    pub fn new(capacity: usize) -> SdiWords {
        SdiWords {
            read: 0,
            queued: Some(VecDeque::new()),
            gathered: Vec::new(),
            capacity,
        }
    }

    /// A receive answered `DONE` for the open command.
    pub fn byte_received(&mut self, byte: u8, findings: &mut Findings) {
        self.gathered.push(byte);
        if self.gathered.len() == 4 {
            self.queue_gathered(findings);
        }
    }

    /// A finish answered `DONE` outside a burst: what was gathered makes a last word.
    pub fn finish(&mut self, findings: &mut Findings) {
        if !self.gathered.is_empty() {
            self.queue_gathered(findings);
        }
    }

    /// An address request answered `DONE` for the open ENTDAA.
    pub fn address_request(&mut self, first: u32, second: u32, findings: &mut Findings) {
        self.queue(first, findings);
        self.queue(second, findings);
    }

    /// The first byte is the most significant, and zeros come behind the last (01, 'Commands
    /// and receipts', 'Bus events').
    fn queue_gathered(&mut self, findings: &mut Findings) {
        let mut bytes = [0; 4];
        bytes[..self.gathered.len()].copy_from_slice(&self.gathered);
        self.gathered.clear();
        self.queue(u32::from_be_bytes(bytes), findings);
    }

    /// More than SDI's capacity can't be queued.
    fn queue(&mut self, word: u32, findings: &mut Findings) {
        let Some(queued) = &mut self.queued else {
            return;
        };
        queued.push_back(word);
        let level = queued.len();
        let capacity = self.capacity;
        findings.judge(Clause::DataQueued, level <= capacity, || {
            format!("expected at most {capacity} words in SDI, saw word {level} queued")
        });
    }

    /// An event brought a word, or did not, for no command that has such events.
    pub fn lose_track(&mut self) {
        self.queued = None;
    }

    /// An SDI read answered `DONE` gives the oldest word that was not read.
    pub fn read(&mut self, seen: u32, findings: &mut Findings) {
        self.read += 1;
        let number = self.read;
        let Some(queued) = &mut self.queued else {
            return;
        };
        let expected = queued.pop_front();
        let kept = expected == Some(seen);
        findings.judge(Clause::DataRead, kept, || match expected {
            Some(word) => format!("expected word {number} of SDI, {word:08x}, saw {seen:08x}"),
            None => format!("expected {EMPTY:02}, no word is in SDI, saw {seen:08x}"),
        });
        if !kept {
            self.lose_track();
        }
    }

    /// An SDI read answered `EMPTY`. After it SDI is taken to be empty, so that one lost word
    /// is reported once.
    pub fn read_refused(&mut self, findings: &mut Findings) {
        self.said_empty(true, &format!("{EMPTY:02}"), findings);
        if let Some(queued) = &mut self.queued {
            queued.clear();
        }
    }

    /// A read of FIFO_STATUS, whose bit 2 tells of SDI (01, 'Register map').
    pub fn status(&self, value: u32, findings: &mut Findings) {
        if value >> 2 & 1 == 1 {
            self.said_empty(true, "bit 2 set", findings);
        } else {
            self.said_empty(false, "bit 2 clear", findings);
        }
    }

    fn said_empty(&self, empty: bool, seen: &str, findings: &mut Findings) {
        let Some(queued) = &self.queued else {
            return;
        };
        findings.judge(Clause::DataQueued, queued.is_empty() == empty, || {
            format!("expected {} words in SDI, saw {seen}", queued.len())
        });
    }

    /// A read of SDI's level (01, 'Register map').
    pub fn level(&self, level: u32, findings: &mut Findings) {
        let Some(queued) = &self.queued else {
            return;
        };
        let expected = queued.len();
        let kept = expected as u64 == u64::from(level);
        findings.judge(Clause::DataQueued, kept, || {
            format!("expected {expected} words in SDI, saw level {level}")
        });
    }
}
