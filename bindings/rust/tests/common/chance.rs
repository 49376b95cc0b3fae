//! Single calls and set-ups by chance: short commands, a few devices, all registers.

use crate::lcg::Lcg;
use thymewax::{registers, Call, Queue, SetUp};

/// A few devices, so that flags and commands meet.
pub const DEVICES: [u32; 6] = [0, 8, 9, 10, 126, 127];

/// Offsets of all registers, and some that are none.
fn any_offset(lcg: &mut Lcg) -> u16 {
    match lcg.below(8) {
        0 => lcg.word() as u16,
        1 => lcg.below(0x400) as u16,
        2 => 0x2b8 + 4 * lcg.below(36) as u16,
        3 => 4 * lcg.below(0x70) as u16,
        4 => 0x080 + 4 * lcg.below(3) as u16,
        _ => 0x0c0 + 4 * lcg.below(11) as u16,
    }
}

/// Mostly short, so that transfers come to their end.
fn length(lcg: &mut Lcg) -> u32 {
    match lcg.below(256) {
        0 => lcg.below(4096),
        1..=40 => lcg.below(14),
        _ => lcg.below(5),
    }
}

/// The first word of a command. The bits that have no name are set at times.
pub fn command(lcg: &mut Lcg) -> u32 {
    let ccc = u32::from(lcg.one_in(4)) << 22;
    let header = u32::from(lcg.one_in(3)) << 21;
    let again = u32::from(lcg.one_in(3)) << 20;
    let unnamed = if lcg.one_in(8) { lcg.word() << 23 } else { 0 };
    unnamed | ccc | header | again | length(lcg) << 8 | lcg.pick(&DEVICES) << 1 | lcg.below(2)
}

/// A command that a burst carries, seldom one that it does not.
fn offload_command(lcg: &mut Lcg) -> u32 {
    if lcg.one_in(24) {
        return command(lcg);
    }
    let header = u32::from(lcg.one_in(3)) << 21;
    header | lcg.below(5) << 8 | lcg.pick(&DEVICES) << 1 | lcg.below(2)
}

pub fn write(offset: u16, value: u32) -> Call {
    Call::Write { offset, value }
}

pub fn read(offset: u16) -> Call {
    Call::Read { offset }
}

/// A device with flags, attached more often than not.
pub fn device(lcg: &mut Lcg) -> Call {
    let attached = u32::from(!lcg.one_in(6)) << 1;
    let flags = lcg.below(4) << 2 | attached;
    let enable = u32::from(!lcg.one_in(8)) << 8;
    write(
        registers::DEV_CHAR,
        lcg.pick(&DEVICES) << 9 | enable | flags,
    )
}

/// A watermark of a queue, one that fits more often than not. Bits 31:16 are any.
fn watermark(lcg: &mut Lcg) -> Call {
    let offset = registers::CMD_WATERMARK + 4 * lcg.below(5) as u16;
    let words = match lcg.below(8) {
        0 => lcg.below(0x1_0000),
        1 => lcg.below(1026),
        _ => lcg.below(5),
    };
    write(offset, lcg.word() << 16 | words)
}

/// A register that tells the bus how to work.
pub fn setting(lcg: &mut Lcg) -> Call {
    let place = lcg.below(16) as usize;
    match lcg.below(18) {
        0..=5 => device(lcg),
        6 => write(registers::IBI_CONFIG, lcg.pick(&[3, 3, 3, 2, 1, 0])),
        // Length and mode: as long as the words that are written most.
        7 | 8 => write(
            registers::OPS,
            lcg.below(4) << 5 | lcg.below(6) << 1 | lcg.below(2),
        ),
        9 => write(registers::OPS, lcg.word()),
        10..=12 => write(registers::OFFLOAD_CMD[place % 5], offload_command(lcg)),
        13 => write(registers::OFFLOAD_CMD[place], offload_command(lcg)),
        14 => write(registers::OFFLOAD_SDO[place], lcg.word()),
        15 | 16 => watermark(lcg),
        _ => write(
            lcg.pick(&[
                registers::IRQ_MASK,
                registers::IRQ_PENDING,
                registers::SCRATCH,
            ]),
            lcg.word(),
        ),
    }
}

/// Any call with any arguments.
pub fn wild(lcg: &mut Lcg) -> Call {
    match lcg.below(12) {
        0..=2 => write(any_offset(lcg), lcg.word()),
        3..=4 => read(any_offset(lcg)),
        5 => Call::Start,
        6 => Call::Send,
        7 => receive(lcg),
        8 => Call::Finish { code: lcg.byte() },
        9 => Call::Interrupt {
            address: lcg.byte(),
            byte: lcg.byte(),
        },
        10 => request(lcg),
        _ => lcg.pick(&[Call::TakeAddress, Call::Trigger]),
    }
}

/// Endings, right and wrong ones.
pub fn ending(lcg: &mut Lcg) -> Call {
    Call::Finish {
        code: lcg.pick(&[0, 0, 0, 0, 1, 4, 6, 8, 8]),
    }
}

pub fn receive(lcg: &mut Lcg) -> Call {
    Call::Receive { byte: lcg.byte() }
}

pub fn request(lcg: &mut Lcg) -> Call {
    Call::Request {
        first: lcg.word(),
        second: lcg.word(),
    }
}

/// A queue with a capacity from `least`, mostly a small one, and a watermark at any place of it.
fn queue(lcg: &mut Lcg, least: u32) -> Queue {
    let most = lcg.pick(&[1, 2, 3, 4, 4, 5, 8, 8, 17, 64, 1024]).max(least);
    let capacity = least + lcg.below(most - least + 1);
    let watermark = match lcg.below(6) {
        0 => 0,
        1 => capacity,
        _ => lcg.below(capacity + 1),
    };
    Queue {
        capacity,
        watermark,
    }
}

/// A set-up in range.
pub fn set_up(lcg: &mut Lcg) -> SetUp {
    SetUp {
        cmd: queue(lcg, 2),
        cmdr: queue(lcg, 1),
        sdo: queue(lcg, 1),
        sdi: queue(lcg, 2),
        ibi: queue(lcg, 1),
        id: lcg.below(256),
    }
}
