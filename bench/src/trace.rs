//! The lists of calls that are timed, each by a fixed rule.
//!
//! Random source: a 64-bit state starts as the seed and steps by
//! state × 6364136223846793005 + 1442695040888963407 modulo 2^64; a number is the upper 32 bits; a
//! choice below n is that number × n, divided by 2^32, rounded down.
//!
//! A list begins with a release, IBI_CONFIG 3 and DEV_CHAR writes: devices 8 to 13 are attached and
//! may interrupt, the even ones send a byte; 14 is attached only; 15 is not attached. The list
//! writer counts what it queued, so that no queue of `cap` words overflows: CMDR, SDI and IBI are
//! read empty when the next round might not fit, and 1 time in 4 after a round.
//!
//! The mixed list is a row of rounds, chosen by weights out of 32:
//!
//! | Weight | Round |
//! |---|---|
//! | 8 | one or two private writes of 0 to 8 bytes: SDO words, commands, then each start, bytes, finish 0 |
//! | 6 | one or two private reads of 0 to 8 bytes, finish 0 |
//! | 4 | a CCC, direct or broadcast, write or read, of 0 to 8 bytes; a read may end early, with 1 |
//! | 3 | an address assignment of 1 to 4 devices; 1 time in 4 an address word with a wrong parity bit first |
//! | 2 | a command for the unattached device (8), or not acknowledged (6) |
//! | 3 | one to three interrupt requests |
//! | 4 | eight register accesses: levels, sources, SCRATCH, IRQ_MASK, OPS, DEV_CHAR, offload memories |
//! | 1 | four calls that are refused: no transfer open, offset not in the map, read-only, argument out of range |
//! | 1 | 1 time in 4 a reset, an SDO write while held, a release; else a register access |
//!
//! [`kinds`] has the lists of one kind. A list is written as a trace file with one section.

use crate::plain::offset;
use file::{record, Trace};

pub mod file;
pub mod kinds;
#[cfg(test)]
pub mod wild;
pub mod wrong;

/// The letters of a session, in 01's order.
pub const LETTERS: [u8; 9] = *b"WRSTXFIDA";

/// Calls in a list that is timed.
pub const CALLS: usize = 1_000_000;

struct Random(u64);

impl Random {
    fn word(&mut self) -> u32 {
        self.0 = self
            .0
            .wrapping_mul(6364136223846793005)
            .wrapping_add(1442695040888963407);
        (self.0 >> 32) as u32
    }

    fn below(&mut self, n: u32) -> u32 {
        ((u64::from(self.word()) * u64::from(n)) >> 32) as u32
    }

    fn one_in(&mut self, n: u32) -> bool {
        self.below(n) == 0
    }
}

// Command words.
const CCC: u32 = 1 << 22;
const DIRECT: u32 = 1 << 7;
const ENTDAA: u32 = 7;
const READ: u32 = 1;

fn command(address: u32, length: u32) -> u32 {
    length << 8 | address << 1
}

fn words_for(bytes: u32) -> u32 {
    bytes.div_ceil(4)
}

/// An address word: bits 31:25 the address, bit 24 makes the number of ones odd.
fn address_word(address: u32) -> u32 {
    let parity = (address.count_ones() + 1) % 2;
    address << 25 | parity << 24
}

const WRONG_PARITY: u32 = 1 << 24;

// The devices.
const FIRST_DEVICE: u32 = 8;
const ATTACHED_ONLY: u32 = 14;
const UNATTACHED: u32 = 15;

const SHOWN: [u16; 15] = [
    offset::VERSION,
    offset::ID,
    offset::SCRATCH,
    offset::ENABLE,
    offset::IRQ_MASK,
    offset::IRQ_PENDING,
    offset::IRQ_SOURCE,
    offset::CMD_ROOM,
    offset::CMDR_LEVEL,
    offset::SDO_ROOM,
    offset::SDI_LEVEL,
    offset::IBI_LEVEL,
    offset::FIFO_STATUS,
    offset::OPS,
    offset::DEV_CHAR,
];

/// They came later (02 §6). The lists that are timed leave them out, so that times compare.
const MARKS: [u16; 5] = [
    offset::CMD_MARK,
    offset::CMDR_MARK,
    offset::SDO_MARK,
    offset::SDI_MARK,
    offset::IBI_MARK,
];

/// The offsets of the registers that show something and whose read changes nothing.
pub fn shown() -> impl Iterator<Item = u16> {
    let offload = (offset::COMMANDS..=offset::PAYLOADS_LAST).step_by(4);
    SHOWN.into_iter().chain(MARKS).chain(offload)
}

/// Writes a list.
struct List {
    trace: Trace,
    random: Random,
    cap: u32,
    cmdr: u32,
    sdi: u32,
    ibi: u32,
}

impl List {
    fn new(cap: u32, seed: u64) -> List {
        let mut list = List {
            trace: Trace::empty(),
            random: Random(seed),
            cap,
            cmdr: 0,
            sdi: 0,
            ibi: 0,
        };
        list.write(offset::ENABLE, 0);
        list.write(offset::IBI_CONFIG, 3);
        for device in FIRST_DEVICE..ATTACHED_ONLY {
            let sends = if device % 2 == 0 { 8 } else { 0 };
            list.write(offset::DEV_CHAR, device << 9 | 0x106 | sends);
        }
        list.write(offset::DEV_CHAR, ATTACHED_ONLY << 9 | 0x102);
        list
    }

    /// Fills the list round by round to exactly `count` calls.
    fn rounds(mut self, count: usize, round: impl Fn(&mut List)) -> Trace {
        while self.trace.count() < count {
            round(&mut self);
        }
        self.trace.truncate(count);
        self.trace
    }

    fn write(&mut self, offset: u16, value: u32) {
        self.trace.push(record(b'W', offset, value, 0));
    }

    fn read(&mut self, offset: u16) {
        self.trace.push(record(b'R', offset, 0, 0));
    }

    /// A bus event, by its arguments.
    fn event(&mut self, letter: u8, first: u32, second: u32) {
        self.trace.push(record(letter, 0, first, second));
    }

    fn start(&mut self) {
        self.event(b'S', 0, 0);
    }

    fn finish(&mut self, code: u32) {
        self.event(b'F', code, 0);
        self.cmdr += 1;
    }

    fn reset(&mut self) {
        self.write(offset::ENABLE, 1);
        self.write(offset::ENABLE, 0);
        (self.cmdr, self.sdi, self.ibi) = (0, 0, 0);
    }

    fn write_sdo(&mut self, words: u32) {
        for _ in 0..words {
            let word = self.random.word();
            self.write(offset::SDO, word);
        }
    }

    fn send(&mut self, bytes: u32) {
        for _ in 0..bytes {
            self.event(b'T', 0, 0);
        }
    }

    fn receive(&mut self, bytes: u32) {
        for _ in 0..bytes {
            let byte = self.random.below(256);
            self.event(b'X', byte, 0);
        }
    }

    fn take_all(&mut self, offset: u16, level: u32) -> u32 {
        for _ in 0..level {
            self.read(offset);
        }
        0
    }

    fn empty_cmdr(&mut self) {
        self.cmdr = self.take_all(offset::CMDR, self.cmdr);
    }

    fn empty_sdi(&mut self) {
        self.sdi = self.take_all(offset::SDI, self.sdi);
    }

    fn empty_ibi(&mut self) {
        self.ibi = self.take_all(offset::IBI, self.ibi);
    }

    /// Room for so many words.
    fn make_room(&mut self, cmdr: u32, sdi: u32, ibi: u32) {
        if self.cmdr + cmdr > self.cap {
            self.empty_cmdr();
        }
        if self.sdi + sdi > self.cap {
            self.empty_sdi();
        }
        if self.ibi + ibi > self.cap {
            self.empty_ibi();
        }
    }

    fn tidy(&mut self) {
        if self.random.one_in(4) {
            self.empty_cmdr();
            self.empty_sdi();
            self.empty_ibi();
        }
    }

    fn device(&mut self) -> u32 {
        FIRST_DEVICE + self.random.below(7)
    }

    fn lengths(&mut self) -> Vec<u32> {
        let transfers = 1 + self.random.below(2);
        (0..transfers).map(|_| self.random.below(9)).collect()
    }

    fn private_writes(&mut self) {
        let lengths = self.lengths();
        self.make_room(2, 0, 0);
        for &length in &lengths {
            self.write_sdo(words_for(length));
            let device = self.device();
            self.write(offset::CMD, command(device, length));
        }
        for length in lengths {
            self.start();
            self.send(length);
            self.finish(0);
        }
    }

    fn private_reads(&mut self) {
        let lengths = self.lengths();
        self.make_room(2, 4, 0);
        for &length in &lengths {
            let device = self.device();
            self.write(offset::CMD, command(device, length) | READ);
        }
        for length in lengths {
            self.start();
            self.receive(length);
            self.finish(0);
            self.sdi += words_for(length);
        }
    }

    fn common_command(&mut self) {
        let length = self.random.below(9);
        let reads = self.random.below(2);
        let direct = self.random.below(2) * DIRECT;
        let device = self.device();
        self.make_room(1, 2, 0);
        self.write(offset::CMD, CCC | command(device, length) | reads);
        self.write(offset::CMD, direct | 0x10);
        if reads == 0 {
            self.write_sdo(words_for(length));
            self.start();
            self.send(length);
            self.finish(0);
            return;
        }
        let moved = self.random.below(length + 1);
        self.start();
        self.receive(moved);
        self.finish(u32::from(moved < length));
        self.sdi += words_for(moved);
    }

    fn assignment(&mut self) {
        let devices = 1 + self.random.below(4);
        self.make_room(1, 0, 0);
        self.write(offset::CMD, CCC);
        self.write(offset::CMD, ENTDAA);
        self.start();
        for _ in 0..devices {
            self.make_room(0, 2, 0);
            let parity = u32::from(self.random.one_in(4));
            self.assign(parity);
        }
        self.finish(0);
    }

    /// One device gets its address, after `wrong` words with a wrong parity bit.
    fn assign(&mut self, wrong: u32) {
        let (first, second) = (self.random.word(), self.random.word());
        let address = self.random.below(128);
        self.event(b'D', first, second);
        self.sdi += 2;
        for _ in 0..wrong {
            self.write(offset::SDO, address_word(address) ^ WRONG_PARITY);
            self.event(b'A', 0, 0);
        }
        self.write(offset::SDO, address_word(address));
        self.event(b'A', 0, 0);
    }

    fn failed_write(&mut self) {
        let length = self.random.below(9);
        self.make_room(1, 0, 0);
        let (device, code) = if self.random.one_in(2) {
            (UNATTACHED, 8)
        } else {
            (ATTACHED_ONLY, 6)
        };
        self.write(offset::CMD, command(device, length));
        self.start();
        self.finish(code);
    }

    fn interrupts(&mut self) {
        let requests = 1 + self.random.below(3);
        self.make_room(0, 0, requests);
        for _ in 0..requests {
            self.interrupt();
        }
    }

    fn interrupt(&mut self) {
        let device = FIRST_DEVICE + self.random.below(6);
        let byte = self.random.below(256);
        self.event(b'I', device, byte);
        self.ibi += 1;
    }

    /// The offset of an offload word.
    fn offload(&mut self) -> u16 {
        let memory = if self.random.one_in(2) {
            offset::COMMANDS
        } else {
            offset::PAYLOADS
        };
        memory + 4 * self.random.below(16) as u16
    }

    fn register_read(&mut self) {
        let at = match self.random.below(18) as usize {
            n if n < SHOWN.len() => SHOWN[n],
            _ => self.offload(),
        };
        self.read(at);
    }

    fn register_write(&mut self) {
        let value = self.random.word();
        match self.random.below(6) {
            0 => self.write(offset::SCRATCH, value),
            1 => self.write(offset::IRQ_MASK, value),
            2 => self.write(offset::IRQ_PENDING, value),
            // Direct mode.
            3 => self.write(offset::OPS, value & !1),
            // Bit 8 clear: the address is selected, its flags stay.
            4 => self.write(offset::DEV_CHAR, value & !0x100),
            _ => {
                let at = self.offload();
                self.write(at, value);
            }
        }
    }

    fn register_access(&mut self) {
        if self.random.one_in(3) {
            self.register_write();
        } else {
            self.register_read();
        }
    }

    fn refused(&mut self) {
        match self.random.below(10) {
            0 => self.start(),
            1 => self.event(b'T', 0, 0),
            2 => self.event(b'X', 0x5a, 0),
            3 => self.event(b'F', 0, 0),
            4 => self.event(b'F', 0x1f, 0),
            5 => self.event(b'I', 0x80, 0),
            6 => self.event(b'D', 1, 2),
            7 => self.event(b'A', 0, 0),
            8 => self.read(0x044),
            _ => self.write(offset::IRQ_SOURCE, 0),
        }
    }

    fn held_write(&mut self) {
        self.write(offset::ENABLE, 1);
        self.write(offset::SDO, 0);
        self.reset();
    }

    fn mixed_round(&mut self) {
        match self.random.below(32) {
            0..=7 => self.private_writes(),
            8..=13 => self.private_reads(),
            14..=17 => self.common_command(),
            18..=20 => self.assignment(),
            21..=22 => self.failed_write(),
            23..=25 => self.interrupts(),
            26..=29 => (0..8).for_each(|_| self.register_access()),
            30 => (0..4).for_each(|_| self.refused()),
            _ if self.random.one_in(4) => self.held_write(),
            _ => self.register_access(),
        }
        self.tidy();
    }
}

/// The mixed list.
pub fn mixed(cap: u32, count: usize, seed: u64) -> Trace {
    List::new(cap, seed).rounds(count, List::mixed_round)
}
