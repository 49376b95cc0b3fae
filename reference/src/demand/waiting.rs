//! Which commands started and which still wait.

use super::clause::{Clause, Findings};
use super::command::{Command, Kind, WaitingWords};
use crate::number::{NO_COMMAND, SDO_NOT_EMPTY};

/// The commands since the release, up to the first start that is not the next
/// command's: from there the n-th start is no longer the n-th command's, and what
/// waits is unknown.
#[derive(Debug)]
pub struct Commands {
    waiting: Option<WaitingWords>,
    started: u64,
    capacity: usize,
}

impl Commands {
    pub fn new(capacity: usize) -> Commands {
        Commands {
            waiting: Some(WaitingWords::default()),
            started: 0,
            capacity,
        }
    }

    /// A write to CMD that was answered `DONE`. More words than its capacity can't wait in it.
    pub fn word_taken(&mut self, word: u32, findings: &mut Findings) {
        let Some(waiting) = &mut self.waiting else {
            return;
        };
        waiting.push(word);
        let level = waiting.level();
        let capacity = self.capacity;
        findings.judge(Clause::RestWaits, level <= capacity, || {
            format!("expected at most {capacity} words waiting, saw word {level} taken")
        });
    }

    /// A read of the room: with the words that wait it makes up the capacity (01, 'Register
    /// map').
    pub fn room(&self, room: u32, findings: &mut Findings) {
        let Some(waiting) = &self.waiting else {
            return;
        };
        let level = waiting.level();
        let capacity = self.capacity;
        let kept = level as u64 + u64::from(room) == capacity as u64;
        findings.judge(Clause::RestWaits, kept, || {
            format!("expected room {capacity} less {level} words waiting, saw room {room}")
        });
    }

    /// A start answered `DONE`. Gives the command that was its turn, if the value is that one's
    /// first word.
    pub fn start(&mut self, value: u32, findings: &mut Findings) -> Option<Command> {
        self.started += 1;
        let number = self.started;
        let command = self.waiting.as_mut()?.start_command();
        let kept = command.is_some_and(|command| command.first == value);
        findings.judge(Clause::StartedInOrder, kept, || match command {
            Some(Command { first, .. }) => {
                format!("expected command {number}, {first:08x}, saw {value:08x} started")
            }
            None => {
                format!("expected a refusal, no whole command waits, saw {value:08x} started")
            }
        });
        if !kept {
            self.waiting = None;
            return None;
        }
        command
    }

    /// A start answered `NO_COMMAND` says that nothing whole waits.
    pub fn refused_without_command(&self, findings: &mut Findings) {
        let Some(waiting) = &self.waiting else {
            return;
        };
        let command = waiting.first_command();
        findings.judge(Clause::RestWaits, command.is_none(), || {
            let first = command.map_or(0, |command| command.first);
            format!("expected command {first:08x} waiting, saw start answered {NO_COMMAND:02}")
        });
    }

    /// A start answered `SDO_NOT_EMPTY` says that the first command that waits is ENTDAA.
    pub fn refused_for_sdo(&self, findings: &mut Findings) {
        let Some(waiting) = &self.waiting else {
            return;
        };
        let command = waiting.first_command();
        let kept = command.is_some_and(|command| command.kind() == Kind::Entdaa);
        findings.judge(Clause::RestWaits, kept, || match command {
            Some(command) => {
                let kind = command.kind().name();
                let first = command.first;
                format!(
                    "expected command {first:08x}, {kind}, waiting, \
                     saw start answered {SDO_NOT_EMPTY:02}"
                )
            }
            None => format!(
                "expected {NO_COMMAND:02}, no whole command waits, \
                 saw start answered {SDO_NOT_EMPTY:02}"
            ),
        });
    }
}
