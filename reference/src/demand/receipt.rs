//! Receipts: their fields, and which were made, read and still queued.

use super::clause::{Clause, Findings};
use super::transfer::Transfer;
use crate::number::EMPTY;
use std::collections::VecDeque;

/// A receipt's word (01, 'Commands and receipts').
#[derive(Clone, Copy, Debug, PartialEq, Eq)]
pub struct Receipt(pub u32);

impl Receipt {
    /// Bits 31:24.
    fn top(self) -> u32 {
        self.0 >> 24
    }

    fn error(self) -> u32 {
        self.0 >> 20 & 0xf
    }

    fn length(self) -> u32 {
        self.0 >> 8 & 0xfff
    }

    fn sync(self) -> u32 {
        self.0 & 0xff
    }
}

/// The receipts since the release.
#[derive(Debug)]
pub struct Receipts {
    made: u64,
    read: u64,
    /// Made and not read. Unknown after a read that was not the next receipt.
    queued: Option<VecDeque<Receipt>>,
    capacity: usize,
}

impl Receipts {
    pub fn new(capacity: usize) -> Receipts {
        Receipts {
            made: 0,
            read: 0,
            queued: Some(VecDeque::new()),
            capacity,
        }
    }

    /// A finish answered `DONE`; its value is the receipt.
    pub fn finish(
        &mut self,
        code: u8,
        receipt: Receipt,
        transfer: Option<Transfer>,
        findings: &mut Findings,
    ) {
        findings.judge(Clause::OneReceiptEach, transfer.is_some(), || {
            let word = receipt.0;
            format!("expected a refusal, no command is open, saw receipt {word:08x}")
        });
        if let Some(transfer) = transfer {
            self.judge_sync(receipt, findings);
            judge_length(receipt, &transfer, findings);
            judge_error(receipt, code, findings);
            judge_top(receipt, findings);
        }
        self.made += 1;
        self.queue(receipt, findings);
    }

    /// The sync begins at 0 with the release and has eight bits.
    fn judge_sync(&self, receipt: Receipt, findings: &mut Findings) {
        let expected = self.made % 256;
        let sync = receipt.sync();
        findings.judge(Clause::ReceiptSync, u64::from(sync) == expected, || {
            format!("expected sync {expected:02x}, saw {sync:02x}")
        });
    }

    /// More than CMDR's capacity can't be queued.
    fn queue(&mut self, receipt: Receipt, findings: &mut Findings) {
        let Some(queued) = &mut self.queued else {
            return;
        };
        queued.push_back(receipt);
        let level = queued.len();
        let capacity = self.capacity;
        findings.judge(Clause::ReceiptsQueued, level <= capacity, || {
            format!("expected at most {capacity} receipts queued, saw receipt {level} queued")
        });
    }

    /// A CMDR read answered `DONE` gives the oldest receipt that was not read.
    pub fn read(&mut self, receipt: Receipt, findings: &mut Findings) {
        self.read += 1;
        let number = self.read;
        let Some(queued) = &mut self.queued else {
            return;
        };
        let expected = queued.pop_front();
        let seen = receipt.0;
        let kept = expected == Some(receipt);
        findings.judge(Clause::ReceiptsRead, kept, || match expected {
            Some(Receipt(word)) => {
                format!("expected receipt {number}, {word:08x}, saw {seen:08x}")
            }
            None => format!("expected {EMPTY:02}, no receipt is queued, saw {seen:08x}"),
        });
        if !kept {
            self.queued = None;
        }
    }

    /// A CMDR read answered `EMPTY`. After it CMDR is taken to be empty, so that one lost receipt
    /// is reported once.
    pub fn read_refused(&mut self, findings: &mut Findings) {
        self.said_empty(true, &format!("{EMPTY:02}"), findings);
        if let Some(queued) = &mut self.queued {
            queued.clear();
        }
    }

    /// A read of FIFO_STATUS, whose bit 0 tells of CMDR (01, 'Register map').
    pub fn status(&self, value: u32, findings: &mut Findings) {
        if value & 1 == 1 {
            self.said_empty(true, "bit 0 set", findings);
        } else {
            self.said_empty(false, "bit 0 clear", findings);
        }
    }

    fn said_empty(&self, empty: bool, seen: &str, findings: &mut Findings) {
        let Some(queued) = &self.queued else {
            return;
        };
        findings.judge(Clause::ReceiptsQueued, queued.is_empty() == empty, || {
            format!("expected {} receipts queued, saw {seen}", queued.len())
        });
    }

    /// A read of CMDR's level; a receipt is one word (01, 'Register map').
    pub fn level(&self, level: u32, findings: &mut Findings) {
        let Some(queued) = &self.queued else {
            return;
        };
        let expected = queued.len();
        let kept = expected as u64 == u64::from(level);
        findings.judge(Clause::ReceiptsQueued, kept, || {
            format!("expected {expected} receipts queued, saw level {level}")
        });
    }
}

/// The bytes counted, and the bound that the command sets. Without the command's words there
/// is none.
fn judge_length(receipt: Receipt, transfer: &Transfer, findings: &mut Findings) {
    let length = receipt.length();
    let moved = transfer.moved;
    findings.judge(Clause::ReceiptLength, u64::from(length) == moved, || {
        format!("expected length {moved}, saw {length}")
    });
    if let Some(command) = transfer.command {
        let commanded = command.commanded_length();
        findings.judge(Clause::CommandedLength, length <= commanded, || {
            format!("expected length at most {commanded}, saw {length}")
        });
    }
}

/// The whole code, above 15 too.
fn judge_error(receipt: Receipt, code: u8, findings: &mut Findings) {
    let error = receipt.error();
    findings.judge(Clause::ReceiptError, error == u32::from(code), || {
        format!("expected error {code}, saw {error}")
    });
}

fn judge_top(receipt: Receipt, findings: &mut Findings) {
    let top = receipt.top();
    findings.judge(Clause::ReceiptTop, top == 0, || {
        format!("expected bits 31:24 clear, saw {top:02x}")
    });
}

/// A finish answered `DONE` in a burst, whose transfers have no receipt (02 §3).
pub fn judge_burst_finish(value: u32, findings: &mut Findings) {
    findings.judge(Clause::OneReceiptEach, value == 0, || {
        format!("expected value 0, a burst has no receipts, saw {value:08x}")
    });
}

#[cfg(test)]
mod tests {
    use super::*;

    #[test]
    fn fields_of_a_receipt() {
        let receipt = Receipt(0xff6a_bc05);
        assert_eq!(receipt.top(), 0xff);
        assert_eq!(receipt.error(), 6);
        assert_eq!(receipt.length(), 0xabc);
        assert_eq!(receipt.sync(), 5);
    }
}
