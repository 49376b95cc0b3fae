//! The count of demand 3 over the calls from a release to the next reset.
//!
//! Demand 3 holds for each beginning of a script, so each call is judged when it comes.
//! What is expected comes from the calls and answers before it, never from a model.

use super::clause::Findings;
use super::command::Kind;
use super::receipt::{judge_burst_finish, Receipt, Receipts};
use super::refusal::{judge_value, LastReads};
use super::register::*;
use super::room::RoomReads;
use super::sdi::SdiWords;
use super::sdo::SdoWords;
use super::transfer::{Owner, Transfers};
use super::waiting::Commands;
use crate::engine::{Answer, Call, SetupNumbers, SESSION_NUMBERS};
use crate::number::{DONE, EMPTY, NO_COMMAND, SDO_EMPTY, SDO_NOT_EMPTY, WRONG_PARITY};

/// What is counted since the release.
#[derive(Debug)]
struct Stretch {
    room_reads: RoomReads,
    commands: Commands,
    transfers: Transfers,
    receipts: Receipts,
    sdo: SdoWords,
    sdi: SdiWords,
    last_reads: LastReads,
}

impl Stretch {
    /// Capacities in the order CMD CMDR SDO SDI IBI.
    fn new(capacities: [u32; 5]) -> Stretch {
        Stretch {
            room_reads: RoomReads::new(),
            commands: Commands::new(capacities[0] as usize),
            transfers: Transfers::default(),
            receipts: Receipts::new(capacities[1] as usize),
            sdo: SdoWords::new(capacities[2] as usize),
            sdi: SdiWords::new(capacities[3] as usize),
            last_reads: LastReads::default(),
        }
    }

    fn judge_call(&mut self, call: &Call, answer: Answer, findings: &mut Findings) {
        // For which transfer an event is, and all that follows from it, is unknown.
        if self.transfers.are_mixed_up() {
            return;
        }
        match *call {
            Call::Write { offset: CMD, value } => self.command_word(value, answer, findings),
            Call::Write { offset: SDO, value } => self.data_word(value, answer, findings),
            Call::Write { .. } => {}
            Call::Read { offset } => self.read(offset, answer, findings),
            Call::Start => self.start(answer, findings),
            Call::Send => self.send(answer, findings),
            Call::Receive { byte } => self.receive(byte, answer, findings),
            Call::AddressRequest { first, second } => {
                self.address_request(first, second, answer, findings);
            }
            Call::AddressTake => self.address_take(answer, findings),
            Call::Finish { code } => self.finish(code, answer, findings),
            Call::InterruptRequest { .. } | Call::Trigger => {
                self.transfers.refusal(answer, findings);
            }
        }
    }

    fn command_word(&mut self, word: u32, answer: Answer, findings: &mut Findings) {
        self.room_reads.word_written(word, answer, findings);
        if answer.number == DONE {
            self.commands.word_taken(word, findings);
        }
    }

    fn data_word(&mut self, word: u32, answer: Answer, findings: &mut Findings) {
        if answer.number == DONE {
            self.sdo.word_taken(word, findings);
        }
    }

    fn read(&mut self, offset: u16, answer: Answer, findings: &mut Findings) {
        let value = answer.value;
        match (offset, answer.number) {
            (CMD_ROOM, DONE) => {
                self.room_reads.read(value);
                self.commands.room(value, findings);
            }
            (CMDR, DONE) => self.receipts.read(Receipt(value), findings),
            (CMDR, EMPTY) => self.receipts.read_refused(findings),
            (CMDR_LEVEL, DONE) => self.receipts.level(value, findings),
            (SDO_ROOM, DONE) => self.sdo.room(value, findings),
            (SDI, DONE) => self.sdi.read(value, findings),
            (SDI, EMPTY) => self.sdi.read_refused(findings),
            (SDI_LEVEL, DONE) => self.sdi.level(value, findings),
            (FIFO_STATUS, DONE) => {
                self.receipts.status(value, findings);
                self.sdi.status(value, findings);
            }
            (OPS, DONE) => self.transfers.ops(value, findings),
            _ => {}
        }
    }

    fn start(&mut self, answer: Answer, findings: &mut Findings) {
        match answer.number {
            DONE => {
                let command = self.commands.start(answer.value, findings);
                self.transfers.start(command, findings);
                if command.is_some_and(|command| command.kind() == Kind::Entdaa) {
                    self.sdo.entdaa_started(findings);
                }
            }
            NO_COMMAND => self.commands.refused_without_command(findings),
            SDO_NOT_EMPTY => {
                self.commands.refused_for_sdo(findings);
                self.sdo.refused_as_not_empty(findings);
            }
            _ => self.transfers.refusal(answer, findings),
        }
    }

    fn send(&mut self, answer: Answer, findings: &mut Findings) {
        match answer.number {
            DONE => match self.transfers.event(Kind::Write, 1, answer, findings) {
                Owner::Command => self.sdo.byte_sent(answer.value, findings),
                Owner::Burst => {}
                Owner::None => self.sdo.lose_track(),
            },
            SDO_EMPTY => self.sdo.refused_as_empty(findings),
            _ => self.transfers.refusal(answer, findings),
        }
    }

    fn receive(&mut self, byte: u8, answer: Answer, findings: &mut Findings) {
        if answer.number != DONE {
            self.transfers.refusal(answer, findings);
            return;
        }
        match self.transfers.event(Kind::Read, 1, answer, findings) {
            Owner::Command => self.sdi.byte_received(byte, findings),
            Owner::Burst => {}
            Owner::None => self.sdi.lose_track(),
        }
    }

    fn address_request(
        &mut self,
        first: u32,
        second: u32,
        answer: Answer,
        findings: &mut Findings,
    ) {
        if answer.number != DONE {
            self.transfers.refusal(answer, findings);
            return;
        }
        match self.transfers.event(Kind::Entdaa, 0, answer, findings) {
            Owner::Command => self.sdi.address_request(first, second, findings),
            Owner::Burst | Owner::None => self.sdi.lose_track(),
        }
    }

    /// A word of wrong parity is taken too.
    fn address_take(&mut self, answer: Answer, findings: &mut Findings) {
        match answer.number {
            DONE | WRONG_PARITY => match self.transfers.event(Kind::Entdaa, 0, answer, findings) {
                Owner::Command => self.sdo.address_taken(answer, findings),
                Owner::Burst | Owner::None => self.sdo.lose_track(),
            },
            SDO_EMPTY => self.sdo.refused_as_empty(findings),
            _ => self.transfers.refusal(answer, findings),
        }
    }

    fn finish(&mut self, code: u8, answer: Answer, findings: &mut Findings) {
        if answer.number != DONE {
            self.transfers.refusal(answer, findings);
        } else if self.transfers.finish_in_burst() {
            judge_burst_finish(answer.value, findings);
        } else {
            let transfer = self.transfers.finish();
            let command = transfer.as_ref().and_then(|transfer| transfer.command);
            self.sdo.finish(code, command);
            self.sdi.finish(findings);
            self.receipts
                .finish(code, Receipt(answer.value), transfer, findings);
        }
    }
}

/// The count over a whole script, from a fresh bank.
#[derive(Debug)]
pub struct Count {
    capacities: [u32; 5],
    /// OPS bits 4:1, which a reset keeps.
    offload_length: u32,
    /// Absent from set-up or a reset until the release.
    stretch: Option<Stretch>,
    findings: Findings,
}

impl Count {
    /// From the session's bank.
    pub fn new() -> Count {
        Count {
            capacities: SESSION_NUMBERS.capacities,
            offload_length: 0,
            stretch: None,
            findings: Findings::default(),
        }
    }

    /// A set-up ends the list and gives the next one its fresh bank. After a refused one no
    /// release is answered `DONE`. `line` is the script's line.
    pub fn set_up(&mut self, line: u64, numbers: &SetupNumbers, answer: Answer) {
        self.findings.set_line(line);
        judge_value(answer, &mut self.findings);
        self.capacities = numbers.capacities;
        self.offload_length = 0;
        self.stretch = None;
    }

    /// `line` is the script's line of the call.
    pub fn judge_call(&mut self, line: u64, call: &Call, answer: Answer) {
        self.findings.set_line(line);
        self.judge_refusal(call, answer);
        match *call {
            Call::Write {
                offset: ENABLE,
                value,
            } if answer.number == DONE => self.enable(value),
            Call::Write { offset: OPS, value } if answer.number == DONE => {
                self.offload_length = value >> 1 & 0xf;
            }
            Call::Trigger if answer.number == DONE => {
                if let Some(stretch) = &mut self.stretch {
                    stretch
                        .transfers
                        .trigger(self.offload_length, &mut self.findings);
                }
            }
            // In reset nothing else counts.
            _ => {
                if let Some(stretch) = &mut self.stretch {
                    stretch.judge_call(call, answer, &mut self.findings);
                }
            }
        }
    }

    /// Refusals are judged in reset too. There no word was read since a release.
    fn judge_refusal(&mut self, call: &Call, answer: Answer) {
        let mut none = LastReads::default();
        let last_reads = match &mut self.stretch {
            Some(stretch) => &mut stretch.last_reads,
            None => &mut none,
        };
        last_reads.judge(call, answer, &mut self.findings);
    }

    /// A write to ENABLE that was answered `DONE`. Bit 0 set is a reset; the first one clear
    /// after that, or after set-up, is the release (01, 'What demand 3 counts').
    fn enable(&mut self, value: u32) {
        if value & 1 == 1 {
            self.stretch = None;
        } else if self.stretch.is_none() {
            self.stretch = Some(Stretch::new(self.capacities));
        }
    }

    pub fn into_findings(self) -> Findings {
        self.findings
    }
}
