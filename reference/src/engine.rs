//! The model: five queues, the register file, one transfer, the bus events and
//! offload bursts.
//!
//! Each rule is followed by its place: 01 is the scope page, 02 the change requests, 001
//! the register page, 004 the control interface.

use crate::number::*;
use std::collections::VecDeque;

/// The result of a call; the value is 0 unless its rule gives one (01, 'Numbers that come
/// back').
#[derive(Clone, Copy, Debug, PartialEq, Eq)]
pub struct Answer {
    pub value: u32,
    pub number: u8,
}

fn done(value: u32) -> Answer {
    Answer {
        value,
        number: DONE,
    }
}

/// A refusal has no value (01, 'Numbers that come back'), but for those of wrong parity and
/// of an empty queue, which are built where they arise.
fn refuse(number: u8) -> Answer {
    Answer { value: 0, number }
}

/// One call other than set-up.
#[derive(Clone, Copy, Debug, PartialEq, Eq)]
pub enum Call {
    Read { offset: u16 },
    Write { offset: u16, value: u32 },
    Start,
    Send,
    Receive { byte: u8 },
    Finish { code: u8 },
    InterruptRequest { address: u8, byte: u8 },
    AddressRequest { first: u32, second: u32 },
    AddressTake,
    Trigger,
}

/// The eleven set-up numbers, queues in the order CMD CMDR SDO SDI IBI (01, 'The part of
/// the controller we model').
#[derive(Clone, Copy, Debug, PartialEq, Eq)]
pub struct SetupNumbers {
    pub capacities: [u32; 5],
    pub watermarks: [u32; 5],
    pub id: u32,
}

/// The bank of a session (01, 'A session'). CMD and SDO have the almost-empty watermarks
/// (001).
pub(crate) const SESSION_NUMBERS: SetupNumbers = SetupNumbers {
    capacities: [4, 4, 4, 4, 4],
    watermarks: [1, 3, 1, 3, 3],
    id: 0,
};

const ZERO_NUMBERS: SetupNumbers = SetupNumbers {
    capacities: [0; 5],
    watermarks: [0; 5],
    id: 0,
};

/// CMD and SDI need room for two words (01, 'The part of the controller we model').
const LEAST_CAPACITIES: [u32; 5] = [2, 1, 1, 2, 1];
const GREATEST_CAPACITY: u32 = 1024;
const GREATEST_ID: u32 = 255;

impl SetupNumbers {
    /// No watermark lies above its queue's capacity (01, 'The part of the controller we
    /// model').
    fn in_range(&self) -> bool {
        let queues_in_range = (0..5).all(|queue| {
            let capacity = self.capacities[queue];
            capacity >= LEAST_CAPACITIES[queue]
                && capacity <= GREATEST_CAPACITY
                && self.watermarks[queue] <= capacity
        });
        queues_in_range && self.id <= GREATEST_ID
    }
}

/// One queue of 32-bit words.
#[derive(Clone, Debug, PartialEq, Eq)]
struct Queue {
    words: VecDeque<u32>,
    capacity: u32,
    watermark: u32,
    /// What the driver read last since the release, 0 before its first read. CMD and SDO
    /// have no reads that take a word, so theirs stays 0 (02 §5).
    last_read: u32,
}

impl Queue {
    fn new(capacity: u32, watermark: u32) -> Queue {
        Queue {
            words: VecDeque::new(),
            capacity,
            watermark,
            last_read: 0,
        }
    }

    fn level(&self) -> u32 {
        self.words.len() as u32
    }

    /// The words that still fit; in reset all of them (01, 'Register map').
    fn room(&self) -> u32 {
        self.capacity - self.level()
    }

    fn is_empty(&self) -> bool {
        self.level() == 0
    }

    fn is_full(&self) -> bool {
        self.room() == 0
    }

    /// The caller has tested the room.
    fn push(&mut self, word: u32) {
        debug_assert!(!self.is_full());
        self.words.push_back(word);
    }

    fn take(&mut self) -> Option<u32> {
        self.words.pop_front()
    }

    /// A driver's read. Of an empty queue it shows the word before once more (02 §5).
    fn read(&mut self) -> Answer {
        let Some(word) = self.take() else {
            return Answer {
                value: self.last_read,
                number: EMPTY,
            };
        };
        self.last_read = word;
        done(word)
    }

    /// Drops the first words, all of them if there are fewer.
    fn remove(&mut self, count: u32) {
        let count = count.min(self.level());
        self.words.drain(..count as usize);
    }

    /// Forgets all words (01, 'The part of the controller we model'), also the one that was
    /// read last (02 §5).
    fn reset(&mut self) {
        self.words.clear();
        self.last_read = 0;
    }

    /// For source bits 0 and 2; false at the watermark (01, 'Register map').
    fn is_below_watermark(&self) -> bool {
        self.level() < self.watermark
    }

    /// For source bits 1, 3 and 4; false at the watermark (01, 'Register map').
    fn is_above_watermark(&self) -> bool {
        self.level() > self.watermark
    }
}

/// The registers of 01's map and those of 02 §6.
#[derive(Clone, Copy, Debug, PartialEq, Eq)]
enum Register {
    Version,
    Id,
    Scratch,
    Enable,
    IrqMask,
    IrqPending,
    IrqSource,
    CmdRoom,
    CmdrLevel,
    SdoRoom,
    SdiLevel,
    IbiLevel,
    Cmd,
    Cmdr,
    Sdo,
    Sdi,
    Ibi,
    FifoStatus,
    Ops,
    IbiConfig,
    DevChar,
    /// By the number of its queue (02 §6).
    Watermark(usize),
    OffloadCommand(usize),
    OffloadData(usize),
}

/// None where the offset is `NO_REGISTER` (01, 'Register map'; 02 §6).
fn register_at(offset: u16) -> Option<Register> {
    if offset % 4 != 0 {
        return None;
    }
    let register = match offset {
        0x000 => Register::Version,
        0x004 => Register::Id,
        0x008 => Register::Scratch,
        0x040 => Register::Enable,
        0x080 => Register::IrqMask,
        0x084 => Register::IrqPending,
        0x088 => Register::IrqSource,
        0x0c0 => Register::CmdRoom,
        0x0c4 => Register::CmdrLevel,
        0x0c8 => Register::SdoRoom,
        0x0cc => Register::SdiLevel,
        0x0d0 => Register::IbiLevel,
        0x0d4 => Register::Cmd,
        0x0d8 => Register::Cmdr,
        0x0dc => Register::Sdo,
        0x0e0 => Register::Sdi,
        0x0e4 => Register::Ibi,
        0x0e8 => Register::FifoStatus,
        0x100 => Register::Ops,
        0x140 => Register::IbiConfig,
        0x180 => Register::DevChar,
        0x200..=0x210 => Register::Watermark(usize::from(offset - 0x200) / 4),
        0x2c0..=0x2fc => Register::OffloadCommand(usize::from(offset - 0x2c0) / 4),
        0x300..=0x33c => Register::OffloadData(usize::from(offset - 0x300) / 4),
        _ => return None,
    };
    Some(register)
}

/// The registers that drop writes (`DROPPED_READ_ONLY`); CMDR, SDI and IBI do, though a read
/// of them takes a word (01, 'Register map').
fn is_read_only(register: Register) -> bool {
    matches!(
        register,
        Register::Version
            | Register::Id
            | Register::IrqSource
            | Register::CmdRoom
            | Register::CmdrLevel
            | Register::SdoRoom
            | Register::SdiLevel
            | Register::IbiLevel
            | Register::Cmdr
            | Register::Sdi
            | Register::Ibi
            | Register::FifoStatus
    )
}

/// The bits of a watermark that are written; a register's other bits don't count (02 §6; 01,
/// 'Register map').
fn watermark_of(value: u32) -> u32 {
    value & 0xffff
}

/// The registers that an open burst rests on, so that it refuses writes to them (02 §3).
fn is_locked_by_burst(register: Register) -> bool {
    matches!(
        register,
        Register::Ops | Register::OffloadCommand(_) | Register::OffloadData(_)
    )
}

/// One device's flags in the table of 128 (01, 'The part of the controller we model').
#[derive(Clone, Copy, Debug, Default, PartialEq, Eq)]
struct Device {
    sends_byte: bool,
    may_interrupt: bool,
    attached: bool,
}

/// The three source bits that are stored; the other five follow the levels.
#[derive(Clone, Copy, Debug, Default, PartialEq, Eq)]
struct Pending {
    receipt: bool,
    interrupt: bool,
    address: bool,
}

/// What a command asks for. ENTDAA counts as no write and as no read (01, 'What demand 3
/// counts').
#[derive(Clone, Copy, Debug, PartialEq, Eq)]
enum Kind {
    Private {
        header: bool,
    },
    DirectCcc,
    BroadcastCcc,
    /// `open`: an address request is open; `made`: one was made since start.
    Entdaa {
        open: bool,
        made: bool,
    },
}

/// One whole command, taken apart.
#[derive(Clone, Copy, Debug, PartialEq, Eq)]
struct Command {
    kind: Kind,
    is_read: bool,
    length: u32,
    address: u8,
}

/// Bit 22 tells a CCC (01, 'Commands and receipts').
fn is_ccc(first: u32) -> bool {
    first >> 22 & 1 == 1
}

/// The code has all eight bits, so that 0x87 is a direct CCC and not ENTDAA (01, 'Commands
/// and receipts').
const ENTDAA_CODE: u32 = 0x07;

/// By the code in the second word's low byte, whose bit 7 is set for a direct CCC (01,
/// 'Commands and receipts').
fn ccc_kind(second: u32) -> Kind {
    if second & 0xff == ENTDAA_CODE {
        Kind::Entdaa {
            open: false,
            made: false,
        }
    } else if second >> 7 & 1 == 1 {
        Kind::DirectCcc
    } else {
        Kind::BroadcastCcc
    }
}

/// The fields of a command's words (01, 'Commands and receipts'). `second` is present
/// exactly for a CCC.
fn parse_command(first: u32, second: Option<u32>) -> Command {
    let kind = match second {
        Some(word) => ccc_kind(word),
        None => Kind::Private {
            header: first >> 21 & 1 == 1,
        },
    };
    // ENTDAA has no payload, whatever its length field holds.
    let length = match kind {
        Kind::Entdaa { .. } => 0,
        _ => first >> 8 & 0xfff,
    };
    Command {
        kind,
        is_read: first & 1 == 1,
        length,
        address: (first >> 1 & 0x7f) as u8,
    }
}

/// A burst has private commands of 0 to 4 bytes and no others (02 §3).
fn is_carried(word: u32) -> bool {
    !is_ccc(word) && parse_command(word, None).length <= 4
}

/// How many of these commands of a burst read.
fn read_count(commands: &[u32]) -> usize {
    commands
        .iter()
        .filter(|word| parse_command(**word, None).is_read)
        .count()
}

/// The open transfer.
#[derive(Clone, Debug, PartialEq, Eq)]
struct Transfer {
    command: Command,
    /// The place of its command in the open burst; none for a direct transfer.
    burst_place: Option<usize>,
    /// Whether the device of a private transfer or a direct CCC was attached when the
    /// transfer opened; else true.
    attached: bool,
    /// Payload bytes moved.
    moved: u32,
    /// Of the word last taken from SDO, or of the offload data word in a burst, the
    /// bytes not yet sent.
    left: VecDeque<u8>,
    /// Bytes received that have not gone to SDI; in a burst all of them.
    gathered: Vec<u8>,
}

impl Transfer {
    fn is_entdaa(&self) -> bool {
        matches!(self.command.kind, Kind::Entdaa { .. })
    }

    fn is_write(&self) -> bool {
        !self.is_entdaa() && !self.command.is_read
    }

    fn is_read(&self) -> bool {
        !self.is_entdaa() && self.command.is_read
    }

    /// Which codes end the transfer (01, 'Bus events', finish).
    fn may_end_with(&self, code: u8) -> bool {
        if !self.attached {
            return code == 8;
        }
        match self.command.kind {
            // Code 4: no device answered, so that none made a request.
            Kind::Entdaa { open, made } => match code {
                0 => !open,
                4 => !made,
                _ => false,
            },
            Kind::Private { header } => self.may_end_payload(code, false, false, header),
            Kind::DirectCcc => self.may_end_payload(code, true, false, false),
            Kind::BroadcastCcc => self.may_end_payload(code, true, true, false),
        }
    }

    /// The same for transfers that have a payload and a device that is attached, or none.
    fn may_end_payload(&self, code: u8, ccc: bool, broadcast: bool, header: bool) -> bool {
        let none_moved = self.moved == 0;
        let all_moved = self.moved == self.command.length;
        match code {
            // All bytes moved; a private read may also end early.
            0 => all_moved || (self.command.is_read && !ccc),
            // A CCC read ended early (004).
            1 => self.command.is_read && ccc && !all_moved,
            // No device acknowledged the broadcast address, with which a CCC or a header
            // begins (004).
            4 => none_moved && (ccc || header),
            // The device did not acknowledge; a broadcast has none.
            6 => none_moved && !broadcast,
            _ => false,
        }
    }

    /// How many words the finish of a direct transfer removes from SDO: a failed write has
    /// moved no byte, so those for its whole length, if they are there (02 §2).
    fn words_removed_by(&self, code: u8) -> u32 {
        match code {
            4 | 6 | 8 if self.is_write() => words_of_bytes(self.command.length),
            _ => 0,
        }
    }
}

/// How many words so many payload bytes fill, the last one perhaps in part.
fn words_of_bytes(bytes: u32) -> u32 {
    bytes.div_ceil(4)
}

/// Up to four bytes as a word, the first one in bits 31:24, zeros behind the last (01,
/// 'Commands and receipts', 'Bus events').
fn word_of_bytes(bytes: &[u8]) -> u32 {
    let mut padded = [0; 4];
    padded[..bytes.len()].copy_from_slice(bytes);
    u32::from_be_bytes(padded)
}

/// The fields of a receipt (01, 'Commands and receipts').
fn receipt_word(code: u8, length: u32, sync: u8) -> u32 {
    u32::from(code) << 20 | length << 8 | u32::from(sync)
}

/// The fields of an interrupt entry (01, 'Commands and receipts').
fn interrupt_entry(address: u8, byte: u8, sync: u8) -> u32 {
    u32::from(address) << 17 | u32::from(byte) << 8 | u32::from(sync)
}

/// One controller's state.
#[derive(Clone, Debug, PartialEq, Eq)]
pub struct Bank {
    /// As set-up got them; the watermarks of now are the queues' (02 §6).
    numbers: SetupNumbers,
    cmd: Queue,
    cmdr: Queue,
    sdo: Queue,
    sdi: Queue,
    ibi: Queue,
    /// ENABLE bit 0: 1 holds the bank in reset.
    in_reset: bool,
    transfer: Option<Transfer>,
    pending: Pending,
    receipt_sync: u8,
    interrupt_sync: u8,
    scratch: u32,
    irq_mask: u32,
    /// OPS bits 6:0.
    ops: u32,
    listen: bool,
    acknowledge: bool,
    selected: usize,
    devices: [Device; 128],
    offload_commands: [u32; 16],
    offload_data: [u32; 16],
}

/// A new bank in reset. Numbers out of range give one on which no call works: all its
/// numbers are 0, ENABLE too (01, 'Numbers that come back').
pub fn set_up(numbers: &SetupNumbers) -> (Bank, Answer) {
    if numbers.in_range() {
        (Bank::new(*numbers, true), done(0))
    } else {
        (Bank::new(ZERO_NUMBERS, false), refuse(SET_UP_OUT_OF_RANGE))
    }
}

impl Bank {
    fn new(numbers: SetupNumbers, in_reset: bool) -> Bank {
        let queue = |n: usize| Queue::new(numbers.capacities[n], numbers.watermarks[n]);
        Bank {
            numbers,
            cmd: queue(0),
            cmdr: queue(1),
            sdo: queue(2),
            sdi: queue(3),
            ibi: queue(4),
            in_reset,
            transfer: None,
            pending: Pending::default(),
            receipt_sync: 0,
            interrupt_sync: 0,
            scratch: 0,
            irq_mask: 0,
            ops: 0,
            listen: false,
            acknowledge: false,
            selected: 0,
            devices: [Device::default(); 128],
            offload_commands: [0; 16],
            offload_data: [0; 16],
        }
    }

    /// In their order (01, 'The part of the controller we model').
    fn queues(&self) -> [&Queue; 5] {
        [&self.cmd, &self.cmdr, &self.sdo, &self.sdi, &self.ibi]
    }

    fn queues_mut(&mut self) -> [&mut Queue; 5] {
        [
            &mut self.cmd,
            &mut self.cmdr,
            &mut self.sdo,
            &mut self.sdi,
            &mut self.ibi,
        ]
    }

    /// `output` is lent to the events; what a burst reads goes there (02 §3).
    pub fn call(&mut self, call: &Call, output: &mut [u32]) -> Answer {
        match *call {
            Call::Read { offset } => self.read(offset),
            Call::Write { offset, value } => self.write(offset, value),
            Call::Start => self.start(output),
            Call::Send => self.send(output),
            Call::Receive { byte } => self.receive(byte, output),
            Call::Finish { code } => self.finish(code, output),
            Call::InterruptRequest { address, byte } => {
                self.interrupt_request(address, byte, output)
            }
            Call::AddressRequest { first, second } => self.address_request(first, second, output),
            Call::AddressTake => self.address_take(output),
            Call::Trigger => self.trigger(output),
        }
    }

    /// Of the conditions on a bank only this one can fail here: it does after a refused
    /// set-up (01, 'Numbers that come back').
    fn is_well_formed(&self) -> bool {
        self.numbers.in_range()
    }

    // Accesses. The order of their numbers: 01, 'Numbers that come back', with
    // `TRANSFER_OPEN` in a burst (02 §3) and `WATERMARK_ABOVE_CAPACITY` (02 §6) behind
    // `NO_REGISTER`. No register can give both of these.

    pub(crate) fn read(&mut self, offset: u16) -> Answer {
        if !self.is_well_formed() {
            return refuse(NOT_WELL_FORMED);
        }
        let Some(register) = register_at(offset) else {
            return refuse(NO_REGISTER);
        };
        match register {
            Register::Cmdr => self.read_cmdr(),
            Register::Sdi => self.sdi.read(),
            Register::Ibi => self.read_ibi(),
            _ => done(self.register_value(register)),
        }
    }

    /// The value of a register whose read changes nothing.
    fn register_value(&self, register: Register) -> u32 {
        match register {
            Register::Version => 0x0000_0100,
            Register::Id => self.numbers.id,
            Register::Scratch => self.scratch,
            Register::Enable => u32::from(self.in_reset),
            Register::IrqMask => self.irq_mask,
            Register::IrqPending => self.irq_source() & self.irq_mask,
            Register::IrqSource => self.irq_source(),
            Register::CmdRoom => self.cmd.room(),
            Register::CmdrLevel => self.cmdr.level(),
            Register::SdoRoom => self.sdo.room(),
            Register::SdiLevel => self.sdi.level(),
            Register::IbiLevel => self.ibi.level(),
            Register::FifoStatus => self.fifo_status(),
            // Bit 7 is not stored.
            Register::Ops => u32::from(self.transfer.is_none()) << 7 | self.ops,
            Register::DevChar => self.device_characteristics(),
            Register::Watermark(n) => self.queues()[n].watermark,
            Register::OffloadCommand(n) => self.offload_commands[n],
            Register::OffloadData(n) => self.offload_data[n],
            // These can only be written (01, 'Register map').
            Register::Cmd | Register::Sdo | Register::IbiConfig => 0,
            Register::Cmdr | Register::Sdi | Register::Ibi => 0,
        }
    }

    /// Bits 0 to 4 follow the levels of the queues, in their order; 5 to 7 are stored (01,
    /// 'Register map').
    fn irq_source(&self) -> u32 {
        let bits = [
            self.cmd.is_below_watermark(),
            self.cmdr.is_above_watermark(),
            self.sdo.is_below_watermark(),
            self.sdi.is_above_watermark(),
            self.ibi.is_above_watermark(),
            self.pending.receipt,
            self.pending.interrupt,
            self.pending.address,
        ];
        (0..8).map(|n| u32::from(bits[n]) << n).sum()
    }

    /// A bit for each of the queues that can be read, 1 if it has no word (01, 'Register
    /// map').
    fn fifo_status(&self) -> u32 {
        u32::from(self.sdi.is_empty()) << 2
            | u32::from(self.ibi.is_empty()) << 1
            | u32::from(self.cmdr.is_empty())
    }

    /// DEV_CHAR as it is read: the device selected last (01, 'Register map').
    fn device_characteristics(&self) -> u32 {
        let device = self.devices[self.selected];
        (self.selected as u32) << 9
            | u32::from(device.sends_byte) << 3
            | u32::from(device.may_interrupt) << 2
            | u32::from(device.attached) << 1
    }

    /// The read of the last receipt clears source bit 5 (01, 'Register map').
    fn read_cmdr(&mut self) -> Answer {
        let answer = self.cmdr.read();
        if answer.number == DONE && self.cmdr.is_empty() {
            self.pending.receipt = false;
        }
        answer
    }

    /// The read of the last entry clears source bit 6 (01, 'Register map').
    fn read_ibi(&mut self) -> Answer {
        let answer = self.ibi.read();
        if answer.number == DONE && self.ibi.is_empty() {
            self.pending.interrupt = false;
        }
        answer
    }

    pub(crate) fn write(&mut self, offset: u16, value: u32) -> Answer {
        if !self.is_well_formed() {
            return refuse(NOT_WELL_FORMED);
        }
        let Some(register) = register_at(offset) else {
            return refuse(NO_REGISTER);
        };
        if self.burst_place().is_some() && is_locked_by_burst(register) {
            return refuse(TRANSFER_OPEN);
        }
        if self.is_watermark_above_capacity(register, value) {
            return refuse(WATERMARK_ABOVE_CAPACITY);
        }
        if is_read_only(register) {
            return refuse(DROPPED_READ_ONLY);
        }
        match register {
            Register::Cmd => return self.write_cmd(value),
            Register::Sdo => return self.write_sdo(value),
            Register::Scratch => self.scratch = value,
            Register::Enable => self.write_enable(value),
            Register::IrqMask => self.irq_mask = value & 0xff,
            Register::IrqPending => self.write_irq_pending(value),
            // Bit 7 can't be written.
            Register::Ops => self.ops = value & 0x7f,
            Register::IbiConfig => self.write_ibi_config(value),
            Register::DevChar => self.write_dev_char(value),
            Register::Watermark(n) => self.queues_mut()[n].watermark = watermark_of(value),
            // 001 has them otherwise; 01 decides.
            Register::OffloadCommand(n) => self.offload_commands[n] = value,
            Register::OffloadData(n) => self.offload_data[n] = value,
            _ => return refuse(DROPPED_READ_ONLY),
        }
        done(0)
    }

    /// Only a watermark that the level can reach is taken (02 §6), as at set-up.
    fn is_watermark_above_capacity(&self, register: Register, value: u32) -> bool {
        match register {
            Register::Watermark(n) => watermark_of(value) > self.queues()[n].capacity,
            _ => false,
        }
    }

    /// All 32 bits are kept (01, 'Register map').
    fn write_cmd(&mut self, word: u32) -> Answer {
        if self.in_reset {
            return refuse(HELD_IN_RESET);
        }
        if self.cmd.is_full() {
            return refuse(DROPPED_FULL);
        }
        self.cmd.push(word);
        done(0)
    }

    /// A word that is queued clears source bit 7 (01, 'Register map').
    fn write_sdo(&mut self, word: u32) -> Answer {
        if self.in_reset {
            return refuse(HELD_IN_RESET);
        }
        if self.sdo.is_full() {
            return refuse(DROPPED_FULL);
        }
        self.sdo.push(word);
        self.pending.address = false;
        done(0)
    }

    /// 1 resets and holds, 0 releases; a second release does nothing (01, 'Register map').
    fn write_enable(&mut self, value: u32) {
        self.in_reset = value & 1 == 1;
        if self.in_reset {
            self.reset();
        }
    }

    /// Registers that the driver has written, watermarks too (02 §6), and the device table
    /// stay (01, 'Register map').
    fn reset(&mut self) {
        for queue in self.queues_mut() {
            queue.reset();
        }
        self.transfer = None;
        self.pending = Pending::default();
        self.receipt_sync = 0;
        self.interrupt_sync = 0;
    }

    /// Each 1 clears the stored source bit in its place (01, 'Register map').
    fn write_irq_pending(&mut self, value: u32) {
        if value >> 5 & 1 == 1 {
            self.pending.receipt = false;
        }
        if value >> 6 & 1 == 1 {
            self.pending.interrupt = false;
        }
        if value >> 7 & 1 == 1 {
            self.pending.address = false;
        }
    }

    /// Bit 0, enable, says whether requests are acknowledged (01, 'Register map').
    fn write_ibi_config(&mut self, value: u32) {
        self.listen = value >> 1 & 1 == 1;
        self.acknowledge = value & 1 == 1;
    }

    /// Selects a device for reads; bit 8 asks for its flags to be stored too (01, 'Register
    /// map').
    fn write_dev_char(&mut self, value: u32) {
        self.selected = (value >> 9 & 0x7f) as usize;
        if value >> 8 & 1 == 1 {
            self.devices[self.selected] = Device {
                sends_byte: value >> 3 & 1 == 1,
                may_interrupt: value >> 2 & 1 == 1,
                attached: value >> 1 & 1 == 1,
            };
        }
    }

    // Bus events. The order of their numbers: `NOT_WELL_FORMED`, `OUT_OF_RANGE`, then
    // `NO_ROOM` for the output of an open burst (02 §3), then each event's own (01, 'Bus
    // events').

    /// Opens the transfer of the command that waits first, and shows its first word (01,
    /// 'Bus events').
    pub(crate) fn start(&mut self, output: &[u32]) -> Answer {
        if !self.is_well_formed() {
            return refuse(NOT_WELL_FORMED);
        }
        if self.is_output_short(output) {
            return refuse(NO_ROOM);
        }
        if self.in_reset {
            return refuse(HELD_IN_RESET);
        }
        if self.transfer.is_some() {
            return refuse(TRANSFER_OPEN);
        }
        if self.is_in_offload_mode() {
            return refuse(NOT_IN_THIS_MODE);
        }
        let Some((first, second)) = self.waiting_command() else {
            return refuse(NO_COMMAND);
        };
        let command = parse_command(first, second);
        if matches!(command.kind, Kind::Entdaa { .. }) && !self.sdo.is_empty() {
            return refuse(SDO_NOT_EMPTY);
        }
        self.cmd.take();
        if second.is_some() {
            self.cmd.take();
        }
        self.transfer = Some(self.new_transfer(command));
        done(first)
    }

    /// OPS bit 0.
    fn is_in_offload_mode(&self) -> bool {
        self.ops & 1 == 1
    }

    /// The command at the head of CMD, if it is whole: a CCC has two words (01, 'Commands
    /// and receipts').
    fn waiting_command(&self) -> Option<(u32, Option<u32>)> {
        let first = *self.cmd.words.front()?;
        if is_ccc(first) {
            let second = *self.cmd.words.get(1)?;
            Some((first, Some(second)))
        } else {
            Some((first, None))
        }
    }

    /// What DEV_CHAR does later has no effect on the transfer: whether its device is
    /// attached is kept with it (01, 'Bus events', start).
    fn new_transfer(&self, command: Command) -> Transfer {
        let attached = match command.kind {
            Kind::Private { .. } | Kind::DirectCcc => {
                self.devices[usize::from(command.address)].attached
            }
            Kind::BroadcastCcc | Kind::Entdaa { .. } => true,
        };
        Transfer {
            command,
            burst_place: None,
            attached,
            moved: 0,
            left: VecDeque::new(),
            gathered: Vec::new(),
        }
    }

    /// Gives the next byte of a write. Every fourth time, from the first on, it needs a new
    /// word of SDO; what the last word has past the length is never sent (01, 'Bus events').
    /// In a burst the bytes lie ready.
    pub(crate) fn send(&mut self, output: &[u32]) -> Answer {
        if !self.is_well_formed() {
            return refuse(NOT_WELL_FORMED);
        }
        if self.is_output_short(output) {
            return refuse(NO_ROOM);
        }
        if self.in_reset {
            return refuse(HELD_IN_RESET);
        }
        let Some(transfer) = self.transfer.as_mut() else {
            return refuse(NO_TRANSFER);
        };
        if !transfer.attached {
            return refuse(NOT_ATTACHED);
        }
        if !transfer.is_write() {
            return refuse(NOT_THIS_KIND);
        }
        if transfer.moved == transfer.command.length {
            return refuse(LENGTH_REACHED);
        }
        if transfer.left.is_empty() {
            let Some(word) = self.sdo.take() else {
                return refuse(SDO_EMPTY);
            };
            transfer.left.extend(word.to_be_bytes());
        }
        let byte = transfer.left.pop_front().unwrap_or(0);
        transfer.moved += 1;
        done(u32::from(byte))
    }

    /// Takes the next byte of a read. Every fourth one completes a word, which needs a place
    /// in SDI (01, 'Bus events').
    pub(crate) fn receive(&mut self, byte: u8, output: &[u32]) -> Answer {
        if !self.is_well_formed() {
            return refuse(NOT_WELL_FORMED);
        }
        if self.is_output_short(output) {
            return refuse(NO_ROOM);
        }
        if self.in_reset {
            return refuse(HELD_IN_RESET);
        }
        let Some(transfer) = self.transfer.as_mut() else {
            return refuse(NO_TRANSFER);
        };
        if !transfer.attached {
            return refuse(NOT_ATTACHED);
        }
        if !transfer.is_read() {
            return refuse(NOT_THIS_KIND);
        }
        if transfer.moved == transfer.command.length {
            return refuse(LENGTH_REACHED);
        }
        // In a burst the bytes wait for the finish.
        let fills_word = transfer.burst_place.is_none() && transfer.gathered.len() == 3;
        if fills_word && self.sdi.is_full() {
            return refuse(NO_ROOM);
        }
        transfer.gathered.push(byte);
        transfer.moved += 1;
        if fills_word {
            self.sdi.push(word_of_bytes(&transfer.gathered));
            transfer.gathered.clear();
        }
        done(0)
    }

    /// Ends the transfer: the bytes that fill no word go to SDI, the receipt to CMDR, both
    /// or neither; it shows the receipt (01, 'Bus events'). The data of a failed write leaves
    /// SDO (02 §2). In a burst there is no receipt: the bytes of a read go to the output, and
    /// the next transfer opens, whatever the code (02 §3).
    pub(crate) fn finish(&mut self, code: u8, output: &mut [u32]) -> Answer {
        if !self.is_well_formed() {
            return refuse(NOT_WELL_FORMED);
        }
        if code > 15 {
            return refuse(OUT_OF_RANGE);
        }
        if self.is_output_short(output) {
            return refuse(NO_ROOM);
        }
        if self.in_reset {
            return refuse(HELD_IN_RESET);
        }
        let Some(transfer) = self.transfer.as_ref() else {
            return refuse(NO_TRANSFER);
        };
        if !transfer.may_end_with(code) {
            return refuse(ENDING_NOT_ALLOWED);
        }
        if let Some(place) = transfer.burst_place {
            if transfer.is_read() {
                output[self.reads_before(place)] = word_of_bytes(&transfer.gathered);
            }
            self.transfer = self.burst_transfer(place + 1);
            return done(0);
        }
        let has_part = !transfer.gathered.is_empty();
        if self.cmdr.is_full() || (has_part && self.sdi.is_full()) {
            return refuse(NO_ROOM);
        }
        if has_part {
            self.sdi.push(word_of_bytes(&transfer.gathered));
        }
        let receipt = receipt_word(code, transfer.moved, self.receipt_sync);
        self.sdo.remove(transfer.words_removed_by(code));
        self.queue_receipt(receipt);
        self.transfer = None;
        done(receipt)
    }

    /// Sets source bit 5; the sync has eight bits (01, 'Register map', 'Commands and
    /// receipts').
    fn queue_receipt(&mut self, receipt: u32) {
        self.cmdr.push(receipt);
        self.pending.receipt = true;
        self.receipt_sync = self.receipt_sync.wrapping_add(1);
    }

    /// Queues an interrupt and shows its entry. The byte counts only where the device's flag
    /// says that it sends one (01, 'Bus events').
    pub(crate) fn interrupt_request(&mut self, address: u8, byte: u8, output: &[u32]) -> Answer {
        if !self.is_well_formed() {
            return refuse(NOT_WELL_FORMED);
        }
        if address > 127 {
            return refuse(OUT_OF_RANGE);
        }
        if self.is_output_short(output) {
            return refuse(NO_ROOM);
        }
        if self.in_reset {
            return refuse(HELD_IN_RESET);
        }
        if self.transfer.is_some() {
            return refuse(TRANSFER_OPEN);
        }
        if !self.listen {
            return refuse(NOT_HEARD);
        }
        let device = self.devices[usize::from(address)];
        if !self.acknowledge || !device.attached || !device.may_interrupt {
            return refuse(NOT_ACKNOWLEDGED);
        }
        if self.ibi.is_full() {
            return refuse(NO_ROOM);
        }
        let stored = if device.sends_byte { byte } else { 0 };
        let entry = interrupt_entry(address, stored, self.interrupt_sync);
        self.queue_interrupt(entry);
        done(entry)
    }

    /// Sets source bit 6. Interrupts have a sync apart from that of the receipts (01,
    /// 'Register map', 'Commands and receipts').
    fn queue_interrupt(&mut self, entry: u32) {
        self.ibi.push(entry);
        self.pending.interrupt = true;
        self.interrupt_sync = self.interrupt_sync.wrapping_add(1);
    }

    /// A device without an address asks for one; its two words go to SDI (01, 'Bus events').
    pub(crate) fn address_request(&mut self, first: u32, second: u32, output: &[u32]) -> Answer {
        if !self.is_well_formed() {
            return refuse(NOT_WELL_FORMED);
        }
        if self.is_output_short(output) {
            return refuse(NO_ROOM);
        }
        if self.in_reset {
            return refuse(HELD_IN_RESET);
        }
        let Some(transfer) = self.transfer.as_mut() else {
            return refuse(NO_TRANSFER);
        };
        let Kind::Entdaa { open, made } = &mut transfer.command.kind else {
            return refuse(NOT_THIS_KIND);
        };
        if *open {
            return refuse(NOT_THIS_KIND);
        }
        if self.sdi.room() < 2 {
            return refuse(NO_ROOM);
        }
        *open = true;
        *made = true;
        self.sdi.push(first);
        self.sdi.push(second);
        self.ask_for_address();
        done(0)
    }

    /// Source bit 7: the driver has to write an address word, unless one is in SDO already
    /// (01, 'Register map').
    fn ask_for_address(&mut self) {
        if self.sdo.is_empty() {
            self.pending.address = true;
        }
    }

    /// Takes the address word for the device that asked. Its top byte is the address and a
    /// bit that makes the count of ones odd (01, 'Bus events').
    pub(crate) fn address_take(&mut self, output: &[u32]) -> Answer {
        if !self.is_well_formed() {
            return refuse(NOT_WELL_FORMED);
        }
        if self.is_output_short(output) {
            return refuse(NO_ROOM);
        }
        if self.in_reset {
            return refuse(HELD_IN_RESET);
        }
        let Some(transfer) = self.transfer.as_mut() else {
            return refuse(NO_TRANSFER);
        };
        let Kind::Entdaa { open, .. } = &mut transfer.command.kind else {
            return refuse(NOT_THIS_KIND);
        };
        if !*open {
            return refuse(NOT_THIS_KIND);
        }
        let Some(word) = self.sdo.take() else {
            return refuse(SDO_EMPTY);
        };
        let address = word >> 25;
        if (word >> 24).count_ones() % 2 == 1 {
            *open = false;
            done(address)
        } else {
            // The device still asks, and the driver has to try again.
            self.ask_for_address();
            Answer {
                value: address,
                number: WRONG_PARITY,
            }
        }
    }

    // Offload bursts.

    /// Opens a burst with the transfer of its first command (02 §3).
    pub(crate) fn trigger(&mut self, output: &[u32]) -> Answer {
        if !self.is_well_formed() {
            return refuse(NOT_WELL_FORMED);
        }
        if self.is_output_short(output) {
            return refuse(NO_ROOM);
        }
        if self.in_reset {
            return refuse(HELD_IN_RESET);
        }
        if self.transfer.is_some() {
            return refuse(TRANSFER_OPEN);
        }
        if !self.is_in_offload_mode() {
            return refuse(NOT_IN_THIS_MODE);
        }
        let commands = self.burst_commands();
        if commands.is_empty() {
            return refuse(BURST_HAS_NO_COMMANDS);
        }
        if !commands.iter().all(|word| is_carried(*word)) {
            return refuse(NOT_CARRIED);
        }
        if output.len() < read_count(commands) {
            return refuse(NO_ROOM);
        }
        self.transfer = self.burst_transfer(0);
        done(0)
    }

    /// As many offload commands as OPS bits 4:1 say (02 §3). All of this is locked while a
    /// burst is open, so these are its commands.
    fn burst_commands(&self) -> &[u32] {
        let length = self.ops >> 1 & 0xf;
        &self.offload_commands[..length as usize]
    }

    /// Where the open burst stands; none if none is open.
    fn burst_place(&self) -> Option<usize> {
        self.transfer.as_ref()?.burst_place
    }

    /// The reads of the burst before its command at `place`.
    fn reads_before(&self, place: usize) -> usize {
        read_count(&self.burst_commands()[..place])
    }

    /// The output must have a word for each read of the open burst, at every event (02 §3).
    fn is_output_short(&self, output: &[u32]) -> bool {
        self.burst_place().is_some() && output.len() < read_count(self.burst_commands())
    }

    /// The transfer of the burst's command at `place`, none past its last. The device table
    /// of this moment counts; the writes get the offload data words in turn (02 §3).
    fn burst_transfer(&self, place: usize) -> Option<Transfer> {
        let word = *self.burst_commands().get(place)?;
        let mut transfer = self.new_transfer(parse_command(word, None));
        transfer.burst_place = Some(place);
        if transfer.is_write() {
            let writes_before = place - self.reads_before(place);
            let data = self.offload_data[writes_before];
            transfer.left.extend(data.to_be_bytes());
        }
        Some(transfer)
    }
}

#[cfg(test)]
mod tests;
