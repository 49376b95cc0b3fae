//! The transfer of the command that started last, while it is open.

use super::clause::{Clause, Findings};
use super::command::{Command, Kind};
use crate::engine::Answer;
use crate::number::{NO_TRANSFER, TRANSFER_OPEN};

#[derive(Debug)]
pub struct Transfer {
    /// Unknown after a start that was not the next command's.
    pub command: Option<Command>,
    /// Sends and receives answered `DONE` so far.
    pub moved: u64,
}

/// For which transfer an event was carried out.
#[derive(Clone, Copy, Debug, PartialEq, Eq)]
pub enum Owner {
    /// The open command, which has such events as far as its words are known.
    Command,
    /// A transfer of the open burst.
    Burst,
    /// None that has such events.
    None,
}

/// An answer's number as its line has it.
fn number_text(answer: Answer) -> String {
    format!("{:02}", answer.number)
}

/// The transfers since the release.
#[derive(Debug, Default)]
pub struct Transfers {
    open: Option<Transfer>,
    started: u64,
    /// Transfers of the open burst that have not finished. Demand 3 leaves bursts out, so
    /// that their events count for nothing (02 §3).
    burst_left: u32,
    /// A burst was open beside a command or another burst, so that events can't be told
    /// apart.
    mixed_up: bool,
}

impl Transfers {
    /// A start answered `DONE`; the command before it must have finished.
    pub fn start(&mut self, command: Option<Command>, findings: &mut Findings) {
        let number = self.started;
        findings.judge(Clause::OneOpen, self.open.is_none(), || {
            format!("expected command {number} finished first, saw the next one started")
        });
        self.judge_apart("a command started", self.burst_left == 0, findings);
        self.started += 1;
        self.open = Some(Transfer { command, moved: 0 });
    }

    /// A trigger answered `DONE`; its burst has this many commands. Neither a command nor a
    /// burst may be open before.
    pub fn trigger(&mut self, commands: u32, findings: &mut Findings) {
        let apart = self.open.is_none() && self.burst_left == 0;
        self.judge_apart("a burst triggered", apart, findings);
        self.burst_left = commands;
    }

    fn judge_apart(&mut self, seen: &str, apart: bool, findings: &mut Findings) {
        findings.judge(Clause::ApartFromBursts, apart, || {
            let open = if self.open.is_some() {
                "command"
            } else {
                "burst"
            };
            format!("expected the open {open} to finish first, saw {seen}")
        });
        self.mixed_up |= !apart;
    }

    pub fn are_mixed_up(&self) -> bool {
        self.mixed_up
    }

    /// With no direct command open, an event is the burst's.
    fn is_in_burst(&self) -> bool {
        self.open.is_none() && self.burst_left > 0
    }

    /// An event carried out that only a command of this kind has; `bytes` is what it moves.
    /// A burst has no ENTDAA (02 §3).
    pub fn event(
        &mut self,
        kind: Kind,
        bytes: u64,
        answer: Answer,
        findings: &mut Findings,
    ) -> Owner {
        if self.is_in_burst() && kind != Kind::Entdaa {
            return Owner::Burst;
        }
        let Some(transfer) = &mut self.open else {
            findings.judge(Clause::EventsOfItsKind, false, || {
                let (kind, seen) = (kind.name(), number_text(answer));
                format!("expected a refusal, {kind} is not open, saw {seen}")
            });
            return Owner::None;
        };
        transfer.moved += bytes;
        let Some(command) = transfer.command else {
            return Owner::Command;
        };
        let kept = command.kind() == kind;
        findings.judge(Clause::EventsOfItsKind, kept, || {
            let (open_kind, seen) = (command.kind().name(), number_text(answer));
            let first = command.first;
            format!("expected a refusal for {first:08x}, {open_kind}, saw {seen}")
        });
        if kept {
            Owner::Command
        } else {
            Owner::None
        }
    }

    /// A finish answered `DONE` for a transfer of the burst; false if it is not one.
    pub fn finish_in_burst(&mut self) -> bool {
        let in_burst = self.is_in_burst();
        if in_burst {
            self.burst_left -= 1;
        }
        in_burst
    }

    /// A finish answered `DONE`; gives the transfer that it ends.
    pub fn finish(&mut self) -> Option<Transfer> {
        self.open.take()
    }

    /// An event refused; two numbers say whether a transfer is open.
    pub fn refusal(&self, answer: Answer, findings: &mut Findings) {
        match answer.number {
            TRANSFER_OPEN => self.said_open(&number_text(answer), findings),
            NO_TRANSFER => self.said_not_open(&number_text(answer), findings),
            _ => {}
        }
    }

    /// A read of OPS, whose bit 7 is clear while a transfer is open (01, 'Register map').
    pub fn ops(&self, value: u32, findings: &mut Findings) {
        if value >> 7 & 1 == 1 {
            self.said_not_open("bit 7 set", findings);
        } else {
            self.said_open("bit 7 clear", findings);
        }
    }

    /// The open transfer may be the burst's.
    fn said_open(&self, seen: &str, findings: &mut Findings) {
        if self.is_in_burst() {
            return;
        }
        findings.judge(Clause::OneOpen, self.open.is_some(), || {
            format!("expected no command open, saw {seen}")
        });
    }

    fn said_not_open(&self, seen: &str, findings: &mut Findings) {
        findings.judge(Clause::OneOpen, self.open.is_none(), || {
            format!("expected command {} open, saw {seen}", self.started)
        });
    }
}
