//! The opponent: 01's rules as plain Rust over the same rings in the same lent store, changed in
//! place, with the same checks at each call. Written for speed first; no call allocates.

pub mod call;
pub mod file;
pub mod offset;
pub mod replay;
pub mod ring;
pub mod transfer;

use call::Call;
use ring::Ring;
use transfer::{Kind, Phase, Requests, Transfer};

/// What a call gives.
#[derive(Clone, Copy, Debug, PartialEq, Eq)]
pub struct Answer {
    pub value: u32,
    pub number: u32,
}

fn done(value: u32) -> Answer {
    Answer { value, number: 0 }
}

fn refuse(number: u32) -> Answer {
    Answer { value: 0, number }
}

/// An empty queue shows the word last read from it (02 §5).
fn empty(value: u32) -> Answer {
    let number = EMPTY;
    Answer { value, number }
}

// 01's numbers, and that of 02 §6.
const FULL: u32 = 1;
const READ_ONLY: u32 = 2;
const EMPTY: u32 = 3;
const NOT_IN_MAP: u32 = 4;
const HELD: u32 = 5;
const TRANSFER_OPEN: u32 = 6;
const NO_TRANSFER: u32 = 7;
const OFFLOAD_MODE: u32 = 8;
const NO_COMMAND: u32 = 9;
const NOT_NOW: u32 = 10;
const LENGTH_REACHED: u32 = 11;
const SDO_EMPTY: u32 = 12;
const NO_ROOM: u32 = 13;
const BAD_ENDING: u32 = 14;
const SDO_NOT_EMPTY: u32 = 15;
const NOT_HEARD: u32 = 16;
const NOT_ACKNOWLEDGED: u32 = 17;
const OUT_OF_RANGE: u32 = 18;
const WRONG_PARITY: u32 = 19;
const NOT_ATTACHED: u32 = 20;
pub const NOT_WELL_FORMED: u32 = 21;
const WRONG_STORE: u32 = 22;
const ABOVE_CAPACITY: u32 = 30;

// The pending bits, at their places in IRQ_SOURCE.
const RECEIPT: u8 = 1 << 5;
const INTERRUPT: u8 = 1 << 6;
const ADDRESS: u8 = 1 << 7;

// The flags of a device.
const ATTACHED: u8 = 1;
const MAY_INTERRUPT: u8 = 2;
const SENDS_BYTE: u8 = 4;

// OPS and IBI_CONFIG.
const OFFLOAD: u8 = 1;
const ACKNOWLEDGE: u8 = 1;
const LISTEN: u8 = 2;

/// The words last read from the queues that the driver reads, since the release.
#[derive(Clone, Copy, Debug, Default, PartialEq, Eq)]
pub struct Latest {
    pub cmdr: u32,
    pub sdi: u32,
    pub ibi: u32,
}

/// The state of one controller but for its words, which lie in the store.
#[derive(Clone, Debug, PartialEq, Eq)]
pub struct Bank {
    pub cmd: Ring,
    pub cmdr: Ring,
    pub sdo: Ring,
    pub sdi: Ring,
    pub ibi: Ring,
    pub phase: Phase,
    pub scratch: u32,
    pub id: u8,
    pub mask: u8,
    pub ops: u8,
    pub config: u8,
    pub selected: u8,
    pub held: bool,
    pub sync: u8,
    pub ibi_sync: u8,
    pub pending: u8,
    pub latest: Latest,
    pub flags: [u8; 128],
    pub commands: [u32; 16],
    pub payloads: [u32; 16],
}

impl Bank {
    /// A bank held in reset: capacities and watermarks in the order of the areas. Numbers out of
    /// range give a bank that every call answers with 21.
    pub fn new(caps: [u32; 5], marks: [u32; 5], id: u8) -> Bank {
        let ring = |n: usize| Ring::new(caps[n], marks[n]);
        Bank {
            cmd: ring(0),
            cmdr: ring(1),
            sdo: ring(2),
            sdi: ring(3),
            ibi: ring(4),
            phase: Phase::Idle,
            scratch: 0,
            id,
            mask: 0,
            ops: 0,
            config: 0,
            selected: 0,
            held: true,
            sync: 0,
            ibi_sync: 0,
            pending: 0,
            latest: Latest::default(),
            flags: [0; 128],
            commands: [0; 16],
            payloads: [0; 16],
        }
    }

    /// Any call.
    pub fn step(&mut self, store: &mut [u32], call: Call) -> Answer {
        if !self.is_well_formed() {
            return refuse(NOT_WELL_FORMED);
        }
        if store.len() != self.store_len() {
            return refuse(WRONG_STORE);
        }
        match call {
            Call::Read { offset } => self.read(store, offset),
            Call::Write { offset, value } => self.write(store, offset, value),
            Call::Start => self.start(store),
            Call::Send => self.send(store),
            Call::Receive { byte } => self.receive(store, byte),
            Call::Finish { code } => self.finish(store, code),
            Call::Interrupt { address, byte } => self.interrupt(store, address, byte),
            Call::Request { first, second } => self.request(store, first, second),
            Call::Take => self.take_address(store),
        }
    }

    /// Apart from the calls, which then have the registers to themselves.
    #[inline(never)]
    pub fn is_well_formed(&self) -> bool {
        self.are_rings_ok()
            && (self.ops < 128)
                & (self.config < 4)
                & (self.selected < 128)
                & (self.pending & !(RECEIPT | INTERRUPT | ADDRESS) == 0)
            && self.phase.is_ok()
            && (!self.held || self.is_cleared())
            && self.are_flags_ok()
    }

    fn are_rings_ok(&self) -> bool {
        self.cmd.is_ok(2)
            & self.cmdr.is_ok(1)
            & self.sdo.is_ok(1)
            & self.sdi.is_ok(2)
            & self.ibi.is_ok(1)
    }

    /// No early exit, so that the scan is one of vectors.
    fn are_flags_ok(&self) -> bool {
        self.flags.iter().fold(0, |all, flags| all | flags) < 8
    }

    fn is_cleared(&self) -> bool {
        let rings = [&self.cmd, &self.cmdr, &self.sdo, &self.sdi, &self.ibi];
        let numbers = rings.iter().fold(0, |all, r| all | r.head | r.level);
        numbers == 0
            && self.sync | self.ibi_sync | self.pending == 0
            && self.latest == Latest::default()
            && self.phase.is_idle()
    }

    fn store_len(&self) -> usize {
        (self.ibi_at() + self.ibi.cap) as usize
    }

    fn cmdr_at(&self) -> u32 {
        self.cmd.cap
    }

    fn sdo_at(&self) -> u32 {
        self.cmdr_at() + self.cmdr.cap
    }

    fn sdi_at(&self) -> u32 {
        self.sdo_at() + self.sdo.cap
    }

    fn ibi_at(&self) -> u32 {
        self.sdi_at() + self.sdi.cap
    }

    fn read(&mut self, store: &[u32], offset: u16) -> Answer {
        let value = match offset {
            offset::VERSION => 0x100,
            offset::ID => u32::from(self.id),
            offset::SCRATCH => self.scratch,
            offset::ENABLE => u32::from(self.held),
            offset::IRQ_MASK => u32::from(self.mask),
            offset::IRQ_PENDING => u32::from(self.source() & self.mask),
            offset::IRQ_SOURCE => u32::from(self.source()),
            offset::CMD_ROOM => self.cmd.room(),
            offset::CMDR_LEVEL => self.cmdr.level,
            offset::SDO_ROOM => self.sdo.room(),
            offset::SDI_LEVEL => self.sdi.level,
            offset::IBI_LEVEL => self.ibi.level,
            offset::CMDR => return self.read_cmdr(store),
            offset::SDI => return self.read_sdi(store),
            offset::IBI => return self.read_ibi(store),
            offset::FIFO_STATUS => self.status(),
            offset::OPS => u32::from(self.phase.is_idle()) << 7 | u32::from(self.ops),
            offset::DEV_CHAR => self.device(),
            offset::CMD_MARK => self.cmd.mark,
            offset::CMDR_MARK => self.cmdr.mark,
            offset::SDO_MARK => self.sdo.mark,
            offset::SDI_MARK => self.sdi.mark,
            offset::IBI_MARK => self.ibi.mark,
            offset::COMMANDS..=offset::COMMANDS_LAST if offset % 4 == 0 => {
                self.commands[usize::from((offset - offset::COMMANDS) / 4)]
            }
            offset::PAYLOADS..=offset::PAYLOADS_LAST if offset % 4 == 0 => {
                self.payloads[usize::from((offset - offset::PAYLOADS) / 4)]
            }
            offset::CMD | offset::SDO | offset::IBI_CONFIG => 0,
            _ => return refuse(NOT_IN_MAP),
        };
        done(value)
    }

    fn source(&self) -> u8 {
        u8::from(self.cmd.is_below())
            | u8::from(self.cmdr.is_above()) << 1
            | u8::from(self.sdo.is_below()) << 2
            | u8::from(self.sdi.is_above()) << 3
            | u8::from(self.ibi.is_above()) << 4
            | self.pending
    }

    fn status(&self) -> u32 {
        u32::from(self.cmdr.is_empty())
            | u32::from(self.ibi.is_empty()) << 1
            | u32::from(self.sdi.is_empty()) << 2
    }

    fn device(&self) -> u32 {
        let flags = self.flags[usize::from(self.selected)];
        u32::from(self.selected) << 9 | u32::from(flags) << 1
    }

    fn read_cmdr(&mut self, store: &[u32]) -> Answer {
        if self.cmdr.is_empty() {
            return empty(self.latest.cmdr);
        }
        let word = self.cmdr.take(store, self.cmd.cap);
        self.latest.cmdr = word;
        if self.cmdr.is_empty() {
            self.pending &= !RECEIPT;
        }
        done(word)
    }

    fn read_sdi(&mut self, store: &[u32]) -> Answer {
        if self.sdi.is_empty() {
            return empty(self.latest.sdi);
        }
        let base = self.sdi_at();
        let word = self.sdi.take(store, base);
        self.latest.sdi = word;
        done(word)
    }

    fn read_ibi(&mut self, store: &[u32]) -> Answer {
        if self.ibi.is_empty() {
            return empty(self.latest.ibi);
        }
        let base = self.ibi_at();
        let word = self.ibi.take(store, base);
        self.latest.ibi = word;
        if self.ibi.is_empty() {
            self.pending &= !INTERRUPT;
        }
        done(word)
    }

    fn write(&mut self, store: &mut [u32], offset: u16, value: u32) -> Answer {
        match offset {
            offset::SCRATCH => self.scratch = value,
            offset::ENABLE => self.write_enable(value),
            offset::IRQ_MASK => self.mask = value as u8,
            offset::IRQ_PENDING => self.pending &= !(value as u8),
            offset::CMD => return self.write_cmd(store, value),
            offset::SDO => return self.write_sdo(store, value),
            offset::OPS => self.ops = (value & 127) as u8,
            offset::IBI_CONFIG => self.config = (value & 3) as u8,
            offset::DEV_CHAR => self.write_device(value),
            offset::CMD_MARK => return write_mark(&mut self.cmd, value),
            offset::CMDR_MARK => return write_mark(&mut self.cmdr, value),
            offset::SDO_MARK => return write_mark(&mut self.sdo, value),
            offset::SDI_MARK => return write_mark(&mut self.sdi, value),
            offset::IBI_MARK => return write_mark(&mut self.ibi, value),
            offset::COMMANDS..=offset::COMMANDS_LAST if offset % 4 == 0 => {
                self.commands[usize::from((offset - offset::COMMANDS) / 4)] = value;
            }
            offset::PAYLOADS..=offset::PAYLOADS_LAST if offset % 4 == 0 => {
                self.payloads[usize::from((offset - offset::PAYLOADS) / 4)] = value;
            }
            offset::VERSION
            | offset::ID
            | offset::IRQ_SOURCE
            | offset::CMD_ROOM
            | offset::CMDR_LEVEL
            | offset::SDO_ROOM
            | offset::SDI_LEVEL
            | offset::IBI_LEVEL
            | offset::CMDR
            | offset::SDI
            | offset::IBI
            | offset::FIFO_STATUS => return refuse(READ_ONLY),
            _ => return refuse(NOT_IN_MAP),
        }
        done(0)
    }

    fn write_enable(&mut self, value: u32) {
        self.held = value & 1 == 1;
        if self.held {
            self.cmd.clear();
            self.cmdr.clear();
            self.sdo.clear();
            self.sdi.clear();
            self.ibi.clear();
            self.phase = Phase::Idle;
            self.sync = 0;
            self.ibi_sync = 0;
            self.pending = 0;
            self.latest = Latest::default();
        }
    }

    fn write_cmd(&mut self, store: &mut [u32], word: u32) -> Answer {
        if self.held {
            return refuse(HELD);
        }
        if self.cmd.is_full() {
            return refuse(FULL);
        }
        self.cmd.push(store, 0, word);
        done(0)
    }

    fn write_sdo(&mut self, store: &mut [u32], word: u32) -> Answer {
        if self.held {
            return refuse(HELD);
        }
        if self.sdo.is_full() {
            return refuse(FULL);
        }
        let base = self.sdo_at();
        self.sdo.push(store, base, word);
        self.pending &= !ADDRESS;
        done(0)
    }

    fn write_device(&mut self, value: u32) {
        self.selected = (value >> 9 & 127) as u8;
        if value >> 8 & 1 == 1 {
            self.flags[usize::from(self.selected)] = (value >> 1 & 7) as u8;
        }
    }

    fn start(&mut self, store: &[u32]) -> Answer {
        if self.held {
            return refuse(HELD);
        }
        if !self.phase.is_idle() {
            return refuse(TRANSFER_OPEN);
        }
        if self.ops & OFFLOAD != 0 {
            return refuse(OFFLOAD_MODE);
        }
        if self.cmd.is_empty() {
            return refuse(NO_COMMAND);
        }
        let first = self.cmd.word(store, 0, 0);
        let mut kind = Kind::Private;
        let mut words = 1;
        if first >> 22 & 1 == 1 {
            if self.cmd.level < 2 {
                return refuse(NO_COMMAND);
            }
            let second = self.cmd.word(store, 0, 1);
            if second & 0xff == 7 {
                return self.start_assignment(first);
            }
            words = 2;
            kind = if second >> 7 & 1 == 1 {
                Kind::Direct
            } else {
                Kind::Broadcast
            };
        }
        self.cmd.drop_words(words);
        let flags = self.flags[(first >> 1 & 127) as usize];
        let transfer = Transfer {
            kind,
            header: first >> 21 & 1 == 1,
            attached: kind == Kind::Broadcast || flags & ATTACHED != 0,
            length: (first >> 8 & 0xfff) as u16,
            moved: 0,
            part: 0,
        };
        self.phase = if first & 1 == 1 {
            Phase::Reading(transfer)
        } else {
            Phase::Writing(transfer)
        };
        done(first)
    }

    fn start_assignment(&mut self, first: u32) -> Answer {
        if !self.sdo.is_empty() {
            return refuse(SDO_NOT_EMPTY);
        }
        self.cmd.drop_words(2);
        self.phase = Phase::Assigning(Requests::None);
        done(first)
    }

    fn send(&mut self, store: &[u32]) -> Answer {
        if self.held {
            return refuse(HELD);
        }
        if self.phase.is_unattached() {
            return refuse(NOT_ATTACHED);
        }
        let base = self.sdo_at();
        let transfer = match &mut self.phase {
            Phase::Writing(transfer) => transfer,
            Phase::Idle => return refuse(NO_TRANSFER),
            _ => return refuse(NOT_NOW),
        };
        if transfer.moved == transfer.length {
            return refuse(LENGTH_REACHED);
        }
        let mut word = transfer.part;
        if transfer.moved % 4 == 0 {
            if self.sdo.is_empty() {
                return refuse(SDO_EMPTY);
            }
            word = self.sdo.take(store, base);
        }
        transfer.moved += 1;
        transfer.part = word << 8;
        done(word >> 24)
    }

    fn receive(&mut self, store: &mut [u32], byte: u8) -> Answer {
        if self.held {
            return refuse(HELD);
        }
        if self.phase.is_unattached() {
            return refuse(NOT_ATTACHED);
        }
        let base = self.sdi_at();
        let transfer = match &mut self.phase {
            Phase::Reading(transfer) => transfer,
            Phase::Idle => return refuse(NO_TRANSFER),
            _ => return refuse(NOT_NOW),
        };
        if transfer.moved == transfer.length {
            return refuse(LENGTH_REACHED);
        }
        let place = transfer.moved % 4;
        let mut word = transfer.part | u32::from(byte) << (24 - 8 * place);
        if place == 3 {
            if self.sdi.is_full() {
                return refuse(NO_ROOM);
            }
            self.sdi.push(store, base, word);
            word = 0;
        }
        transfer.moved += 1;
        transfer.part = word;
        done(0)
    }

    fn finish(&mut self, store: &mut [u32], code: u8) -> Answer {
        if code > 15 {
            return refuse(OUT_OF_RANGE);
        }
        if self.held {
            return refuse(HELD);
        }
        let mut moved = 0;
        let mut part = None;
        let mut unsent = 0;
        let allowed = match &self.phase {
            Phase::Idle => return refuse(NO_TRANSFER),
            Phase::Writing(transfer) => {
                moved = transfer.moved;
                if let 4 | 6 | 8 = code {
                    unsent = u32::from(transfer.length).div_ceil(4);
                }
                transfer.may_end(code, false)
            }
            Phase::Reading(transfer) => {
                moved = transfer.moved;
                if moved % 4 != 0 {
                    part = Some(transfer.part);
                }
                transfer.may_end(code, true)
            }
            Phase::Assigning(requests) => match code {
                0 => *requests != Requests::Open,
                4 => *requests == Requests::None,
                _ => false,
            },
        };
        if !allowed {
            return refuse(BAD_ENDING);
        }
        if self.cmdr.is_full() || (part.is_some() && self.sdi.is_full()) {
            return refuse(NO_ROOM);
        }
        if let Some(word) = part {
            let base = self.sdi_at();
            self.sdi.push(store, base, word);
        }
        self.sdo.drop_words(unsent.min(self.sdo.level));
        let receipt = u32::from(code) << 20 | u32::from(moved) << 8 | u32::from(self.sync);
        self.cmdr.push(store, self.cmd.cap, receipt);
        self.sync = self.sync.wrapping_add(1);
        self.pending |= RECEIPT;
        self.phase = Phase::Idle;
        done(receipt)
    }

    fn interrupt(&mut self, store: &mut [u32], address: u8, byte: u8) -> Answer {
        if address > 127 {
            return refuse(OUT_OF_RANGE);
        }
        if self.held {
            return refuse(HELD);
        }
        if !self.phase.is_idle() {
            return refuse(TRANSFER_OPEN);
        }
        if self.config & LISTEN == 0 {
            return refuse(NOT_HEARD);
        }
        let flags = self.flags[usize::from(address)];
        let heeded = ATTACHED | MAY_INTERRUPT;
        if self.config & ACKNOWLEDGE == 0 || flags & heeded != heeded {
            return refuse(NOT_ACKNOWLEDGED);
        }
        if self.ibi.is_full() {
            return refuse(NO_ROOM);
        }
        let sent = if flags & SENDS_BYTE != 0 { byte } else { 0 };
        let entry = u32::from(address) << 17 | u32::from(sent) << 8 | u32::from(self.ibi_sync);
        let base = self.ibi_at();
        self.ibi.push(store, base, entry);
        self.ibi_sync = self.ibi_sync.wrapping_add(1);
        self.pending |= INTERRUPT;
        done(entry)
    }

    fn request(&mut self, store: &mut [u32], first: u32, second: u32) -> Answer {
        if self.held {
            return refuse(HELD);
        }
        match self.phase {
            Phase::Assigning(Requests::None | Requests::Answered) => {}
            Phase::Idle => return refuse(NO_TRANSFER),
            _ => return refuse(NOT_NOW),
        }
        if self.sdi.room() < 2 {
            return refuse(NO_ROOM);
        }
        let base = self.sdi_at();
        self.sdi.push(store, base, first);
        self.sdi.push(store, base, second);
        self.phase = Phase::Assigning(Requests::Open);
        self.ask_for_address();
        done(0)
    }

    fn ask_for_address(&mut self) {
        if self.sdo.is_empty() {
            self.pending |= ADDRESS;
        }
    }

    fn take_address(&mut self, store: &[u32]) -> Answer {
        if self.held {
            return refuse(HELD);
        }
        match self.phase {
            Phase::Assigning(Requests::Open) => {}
            Phase::Idle => return refuse(NO_TRANSFER),
            _ => return refuse(NOT_NOW),
        }
        if self.sdo.is_empty() {
            return refuse(SDO_EMPTY);
        }
        let base = self.sdo_at();
        let word = self.sdo.take(store, base);
        let value = word >> 25;
        if (word >> 24).count_ones() % 2 == 1 {
            self.phase = Phase::Assigning(Requests::Answered);
            return done(value);
        }
        self.ask_for_address();
        Answer {
            value,
            number: WRONG_PARITY,
        }
    }
}

/// A watermark has sixteen bits, and is no more than its queue holds (02 §6).
fn write_mark(ring: &mut Ring, value: u32) -> Answer {
    let mark = value & 0xffff;
    if mark > ring.cap {
        return refuse(ABOVE_CAPACITY);
    }
    ring.mark = mark;
    done(0)
}
