//! Walks: calls by chance, steered so that transfers open, move bytes and finish.

use crate::chance::*;
use crate::lcg::Lcg;
use crate::pair::Pair;
use std::collections::VecDeque;
use thymewax::{registers, Answer, Call, Number};

/// The code of an address assignment, in the second word of a CCC.
const ENTDAA: u32 = 0x07;

/// What is open, as far as the next call wants to know.
#[derive(Clone, Copy)]
enum Kind {
    Write,
    Read,
    Assignment,
    Burst,
}

impl Kind {
    /// A call that brings such a transfer further.
    fn call(self, lcg: &mut Lcg) -> Call {
        match (self, lcg.below(16)) {
            (_, 0..=2) => ending(lcg),
            (_, 3) => read(registers::CMDR_FIFO),
            (Kind::Write, 4..=6) => write(registers::SDO_FIFO, lcg.word()),
            (Kind::Write, _) => Call::Send,
            (Kind::Read, 4..=6) => read(registers::SDI_FIFO),
            (Kind::Read, _) => receive(lcg),
            (Kind::Assignment, 4..=6) => read(registers::SDI_FIFO),
            (Kind::Assignment, 7..=9) => write(registers::SDO_FIFO, lcg.word()),
            (Kind::Assignment, 10..=12) => request(lcg),
            (Kind::Assignment, _) => Call::TakeAddress,
            (Kind::Burst, 4..=9) => Call::Send,
            (Kind::Burst, _) => receive(lcg),
        }
    }
}

/// How the calls of a walk are chosen.
pub struct Walk {
    /// A reset comes now and then. Without one, syncs come round; no assignment is then commanded, since
    /// only a reset helps where words in SDO bar its start. Wild calls do both, but seldom.
    resets: bool,
    /// The words that CMD took and no start has taken.
    queued: VecDeque<u32>,
    kind: Kind,
    /// The answer to the last call.
    last: Number,
}

impl Walk {
    pub fn new(resets: bool) -> Walk {
        Walk {
            resets,
            queued: VecDeque::new(),
            kind: Kind::Burst,
            last: Number::DONE,
        }
    }

    /// The next call for a pair, and what it was answered.
    pub fn step(&mut self, pair: &mut Pair, lcg: &mut Lcg) -> (Call, Answer) {
        let call = self.choose(pair, lcg);
        let answer = pair.call(call);
        self.note(call, answer);
        (call, answer)
    }

    fn choose(&self, pair: &mut Pair, lcg: &mut Lcg) -> Call {
        if pair.held() {
            return match lcg.below(8) {
                0..=3 => wild(lcg),
                4 => setting(lcg),
                5 => write(registers::CMD_FIFO, lcg.word()),
                6 => ending(lcg),
                _ => write(registers::ENABLE, lcg.word() & !1),
            };
        }
        if self.resets && lcg.one_in(200) {
            return write(registers::ENABLE, lcg.word() | 1);
        }
        if lcg.one_in(2) {
            if let Some(call) = self.repair(lcg) {
                return call;
            }
        }
        match (pair.open(), lcg.below(20)) {
            (true, 0) => wild(lcg),
            (true, 1) => setting(lcg),
            (true, 2) => lcg.pick(&[Call::Send, Call::TakeAddress]),
            (true, 3) => receive(lcg),
            (true, 4) => write(registers::CMD_FIFO, self.command_word(lcg)),
            (true, _) => self.kind.call(lcg),
            (false, _) => self.between(lcg),
        }
    }

    /// What docs/ANSWERS.md says that one can do about the last answer.
    fn repair(&self, lcg: &mut Lcg) -> Option<Call> {
        let call = match self.last {
            Number::DROPPED_FULL => Call::Start,
            Number::NOT_IN_THIS_MODE => write(registers::OPS, lcg.word()),
            Number::NO_COMMAND => write(registers::CMD_FIFO, self.command_word(lcg)),
            Number::LENGTH_REACHED => Call::Finish { code: 0 },
            Number::SDO_EMPTY => write(registers::SDO_FIFO, lcg.word()),
            Number::NO_ROOM => read(lcg.pick(&[
                registers::CMDR_FIFO,
                registers::SDI_FIFO,
                registers::IBI_FIFO,
            ])),
            Number::SDO_NOT_EMPTY if self.resets => write(registers::ENABLE, 1),
            Number::NOT_HEARD => write(registers::IBI_CONFIG, 3),
            Number::NOT_ACKNOWLEDGED if lcg.one_in(2) => write(registers::IBI_CONFIG, 3),
            Number::NOT_ACKNOWLEDGED => device(lcg),
            Number::NOT_ATTACHED => Call::Finish { code: 8 },
            Number::BURST_HAS_NO_COMMANDS => write(registers::OPS, lcg.word() | 1),
            Number::NOT_CARRIED => write(registers::OFFLOAD_CMD[lcg.below(5) as usize], 0),
            _ => return None,
        };
        Some(call)
    }

    /// With no transfer open: commands, starts, triggers, interrupts, and the queues read.
    fn between(&self, lcg: &mut Lcg) -> Call {
        match lcg.below(100) {
            0..=18 => Call::Start,
            19..=36 => write(registers::CMD_FIFO, self.command_word(lcg)),
            37..=38 => write(registers::SDO_FIFO, lcg.word()),
            39..=47 => read(registers::CMDR_FIFO),
            48..=52 => read(registers::SDI_FIFO),
            53..=63 => Call::Interrupt {
                address: lcg.pick(&DEVICES) as u8,
                byte: lcg.byte(),
            },
            64..=71 => read(registers::IBI_FIFO),
            72..=78 => Call::Trigger,
            79..=92 => setting(lcg),
            93 => ending(lcg),
            _ => wild(lcg),
        }
    }

    /// A command, or the second word of one.
    fn command_word(&self, lcg: &mut Lcg) -> u32 {
        let second = self.queued.back().is_some_and(|word| word >> 22 & 1 == 1);
        match lcg.below(4) {
            0 | 1 if second && self.resets => lcg.word() << 8 | ENTDAA,
            2 if second => lcg.word() | 1 << 3,
            _ => command(lcg),
        }
    }

    /// What an answer tells of the next calls.
    fn note(&mut self, call: Call, answer: Answer) {
        self.last = answer.number;
        if !answer.is_done() {
            return;
        }
        match call {
            Call::Write {
                offset: registers::CMD_FIFO,
                value,
            } => self.queued.push_back(value),
            Call::Write {
                offset: registers::ENABLE,
                value,
            } if value & 1 == 1 => {
                self.queued.clear();
            }
            Call::Start => self.kind = self.started(),
            Call::Trigger => self.kind = Kind::Burst,
            _ => {}
        }
    }

    /// The command at hand leaves the queue.
    fn started(&mut self) -> Kind {
        let first = self.queued.pop_front().unwrap_or(0);
        let second = if first >> 22 & 1 == 1 {
            self.queued.pop_front()
        } else {
            None
        };
        match (second, first & 1) {
            (Some(word), _) if word & 0xff == ENTDAA => Kind::Assignment,
            (_, 0) => Kind::Write,
            _ => Kind::Read,
        }
    }
}
