//! Tests of the engine, rule by rule, and a walk of random calls against the
//! count of demand 3, data words included.

mod bursts;
mod empty_reads;
mod failed_writes;
mod watermarks;

use super::*;

fn fresh() -> Bank {
    set_up(&SESSION_NUMBERS).0
}

fn released() -> Bank {
    let mut bank = fresh();
    assert_eq!(bank.write(0x40, 0), done(0));
    bank
}

/// Released, with device 8 attached.
fn with_device() -> Bank {
    let mut bank = released();
    assert_eq!(bank.write(0x180, 0x1102), done(0));
    bank
}

fn value_at(bank: &mut Bank, offset: u16) -> u32 {
    let answer = bank.read(offset);
    assert_eq!(answer.number, DONE);
    answer.value
}

fn started(bank: &mut Bank, words: &[u32]) {
    for word in words {
        assert_eq!(bank.write(0xd4, *word), done(0));
    }
    assert_eq!(bank.start(&[]), done(words[0]));
}

const PRIVATE_WRITE_2: u32 = 0x0000_0210;
const PRIVATE_READ_5: u32 = 0x0000_0511;
const CCC: u32 = 0x0040_0000;
const HEADER: u32 = 0x0020_0000;

// Set-up.

/// The least and the greatest of each number, and what lies next to them outside (01, 'The
/// part of the controller we model').
#[test]
fn set_up_ranges() {
    let least = SetupNumbers {
        capacities: [2, 1, 1, 2, 1],
        watermarks: [0; 5],
        id: 255,
    };
    assert_eq!(set_up(&least).1, done(0));
    let greatest = SetupNumbers {
        capacities: [1024; 5],
        watermarks: [1024; 5],
        id: 0,
    };
    assert_eq!(set_up(&greatest).1, done(0));
    for queue in 0..5 {
        let mut numbers = least;
        numbers.capacities[queue] -= 1;
        assert_eq!(set_up(&numbers).1, refuse(SET_UP_OUT_OF_RANGE));
        let mut numbers = greatest;
        numbers.capacities[queue] = 1025;
        assert_eq!(set_up(&numbers).1, refuse(SET_UP_OUT_OF_RANGE));
        let mut numbers = least;
        numbers.watermarks[queue] = least.capacities[queue] + 1;
        assert_eq!(set_up(&numbers).1, refuse(SET_UP_OUT_OF_RANGE));
        let mut numbers = least;
        numbers.watermarks[queue] = u32::MAX;
        assert_eq!(set_up(&numbers).1, refuse(SET_UP_OUT_OF_RANGE));
    }
    let mut numbers = least;
    numbers.id = 256;
    assert_eq!(set_up(&numbers).1, refuse(SET_UP_OUT_OF_RANGE));
}

/// Nothing is stored but ENABLE, the ID and the watermarks; what is computed shows empty
/// queues (01, 'Numbers that come back'; 02 §6).
#[test]
fn registers_after_set_up() {
    let mut numbers = SESSION_NUMBERS;
    numbers.id = 0xa5;
    let (mut bank, _) = set_up(&numbers);
    let expected = [
        (0x000, 0x100),
        (0x004, 0xa5),
        (0x008, 0),
        (0x040, 1),
        (0x080, 0),
        (0x084, 0),
        (0x088, 5),
        (0x0c0, 4),
        (0x0c4, 0),
        (0x0c8, 4),
        (0x0cc, 0),
        (0x0d0, 0),
        (0x0d4, 0),
        (0x0dc, 0),
        (0x0e8, 7),
        (0x100, 0x80),
        (0x140, 0),
        (0x180, 0),
        (0x200, 1),
        (0x204, 3),
        (0x208, 1),
        (0x20c, 3),
        (0x210, 3),
        (0x2c0, 0),
        (0x2fc, 0),
        (0x300, 0),
        (0x33c, 0),
    ];
    for (offset, value) in expected {
        assert_eq!(bank.read(offset), done(value), "{offset:#x}");
    }
    for offset in [0x0d8, 0x0e0, 0x0e4] {
        assert_eq!(bank.read(offset), refuse(EMPTY));
    }
}

// Accesses.

/// All 65,536 offsets: reads and writes know the same 58 (01, 'Register map'; 02 §6).
#[test]
fn offsets_of_the_map() {
    let mut in_map = 0;
    for offset in 0..=u16::MAX {
        let mut bank = released();
        let read = bank.read(offset);
        let written = bank.write(offset, 0);
        assert_eq!(read.number == NO_REGISTER, written.number == NO_REGISTER);
        if read.number != NO_REGISTER {
            in_map += 1;
            assert_eq!(offset % 4, 0);
        }
    }
    assert_eq!(in_map, 3 + 1 + 3 + 11 + 3 + 5 + 32);
    for offset in [
        1, 0x0d5, 0x00c, 0x044, 0x08c, 0x0ec, 0x1fc, 0x202, 0x214, 0x2bc, 0x2c2, 0x340,
    ] {
        assert_eq!(released().read(offset), refuse(NO_REGISTER));
    }
}

/// Writes to them leave the bank as it was, in reset too (01, 'Register map').
#[test]
fn read_only_registers() {
    let offsets = [
        0x000, 0x004, 0x088, 0x0c0, 0x0c4, 0x0c8, 0x0cc, 0x0d0, 0x0d8, 0x0e0, 0x0e4, 0x0e8,
    ];
    for offset in offsets {
        for mut bank in [fresh(), released()] {
            let before = bank.clone();
            assert_eq!(bank.write(offset, u32::MAX), refuse(DROPPED_READ_ONLY));
            assert_eq!(bank, before);
        }
    }
}

/// All ones written; only the bits that the map names come back (01, 'Register map').
#[test]
fn kept_bits() {
    for mut bank in [fresh(), released()] {
        let kept = [
            (0x008, u32::MAX),
            (0x080, 0xff),
            (0x100, 0xff),
            (0x140, 0),
            (0x180, 0xfe0e),
            (0x2c4, u32::MAX),
            (0x338, u32::MAX),
        ];
        for (offset, value) in kept {
            assert_eq!(bank.write(offset, u32::MAX), done(0));
            assert_eq!(bank.read(offset), done(value), "{offset:#x}");
        }
    }
    let mut bank = fresh();
    assert_eq!(bank.write(0x40, u32::MAX), done(0));
    assert_eq!(bank.read(0x40), done(1));
    assert_eq!(bank.write(0x40, 0xffff_fffe), done(0));
    assert_eq!(bank.read(0x40), done(0));
}

/// Thirty-two words, none of them another's (01, 'Register map').
#[test]
fn offload_memories() {
    let mut bank = fresh();
    for offset in (0x2c0..=0x33c).step_by(4) {
        assert_eq!(bank.write(offset, 0x8000_0000 | u32::from(offset)), done(0));
    }
    for offset in (0x2c0..=0x33c).step_by(4) {
        assert_eq!(bank.read(offset), done(0x8000_0000 | u32::from(offset)));
    }
}

/// A write without bit 8 changes what is shown, not what is stored (01, 'Register map').
#[test]
fn device_table() {
    let mut bank = fresh();
    bank.write(0x180, 0x110e);
    assert_eq!(bank.read(0x180), done(0x100e));
    bank.write(0x180, 0xfe0e);
    assert_eq!(bank.read(0x180), done(0xfe00));
    bank.write(0x180, 0x1000);
    assert_eq!(bank.read(0x180), done(0x100e));
    bank.write(0x180, 0x1104);
    assert_eq!(bank.read(0x180), done(0x1004));
}

/// Which calls a reset refuses; `OUT_OF_RANGE` goes before that (01, 'Numbers that come
/// back').
#[test]
fn held_in_reset() {
    let mut bank = fresh();
    assert_eq!(bank.write(0xd4, 0), refuse(HELD_IN_RESET));
    assert_eq!(bank.write(0xdc, 0), refuse(HELD_IN_RESET));
    assert_eq!(bank.start(&[]), refuse(HELD_IN_RESET));
    assert_eq!(bank.send(&[]), refuse(HELD_IN_RESET));
    assert_eq!(bank.receive(0, &[]), refuse(HELD_IN_RESET));
    assert_eq!(bank.finish(15, &mut []), refuse(HELD_IN_RESET));
    assert_eq!(bank.finish(16, &mut []), refuse(OUT_OF_RANGE));
    assert_eq!(bank.interrupt_request(127, 0, &[]), refuse(HELD_IN_RESET));
    assert_eq!(bank.interrupt_request(128, 0, &[]), refuse(OUT_OF_RANGE));
    assert_eq!(bank.address_request(0, 0, &[]), refuse(HELD_IN_RESET));
    assert_eq!(bank.address_take(&[]), refuse(HELD_IN_RESET));
    assert_eq!(bank, fresh());
}

/// A reset in the middle of all leaves a fresh bank with the registers that the driver
/// wrote (01, 'Register map').
#[test]
fn reset_keeps_the_other_registers() {
    let mut bank = with_device();
    bank.write(0x008, 0x1234_5678);
    bank.write(0x080, 0xa5);
    bank.write(0x100, 0x7e);
    bank.write(0x140, 3);
    bank.write(0x180, 0x130e);
    bank.write(0x2c0, 1);
    bank.write(0x300, 2);
    bank.write(0xdc, 3);
    started(&mut bank, &[0x10]);
    assert_eq!(bank.finish(0, &mut []), done(0));
    bank.interrupt_request(9, 9, &[]);
    started(&mut bank, &[PRIVATE_READ_5]);
    bank.write(0xd4, 0x10);
    bank.receive(1, &[]);
    assert_eq!(value_at(&mut bank, 0x88), 0x60);
    assert_eq!(bank.write(0x40, 1), done(0));

    let mut expected = fresh();
    for (offset, value) in [
        (0x008, 0x1234_5678),
        (0x080, 0xa5),
        (0x100, 0x7e),
        (0x140, 3),
        (0x180, 0x1102),
        (0x180, 0x130e),
        (0x2c0, 1),
        (0x300, 2),
    ] {
        expected.write(offset, value);
    }
    assert_eq!(bank, expected);

    assert_eq!(bank.write(0x40, 0), done(0));
    started(&mut bank, &[0x10]);
    assert_eq!(bank.finish(6, &mut []), done(0x0060_0000));
    assert_eq!(bank.interrupt_request(9, 9, &[]), done(0x0012_0900));
}

/// The second one leaves an open transfer (01, 'Register map').
#[test]
fn release_twice() {
    let mut bank = with_device();
    started(&mut bank, &[PRIVATE_READ_5]);
    bank.receive(1, &[]);
    let before = bank.clone();
    assert_eq!(bank.write(0x40, 0), done(0));
    assert_eq!(bank, before);
}

// Interrupt sources.

/// Source bits 0 and 2; at the watermark they are 0 (01, 'Register map').
#[test]
fn almost_empty() {
    let mut bank = released();
    assert_eq!(value_at(&mut bank, 0x88), 0x05);
    bank.write(0xd4, 0);
    assert_eq!(value_at(&mut bank, 0x88), 0x04);
    bank.write(0xdc, 0);
    assert_eq!(value_at(&mut bank, 0x88), 0x00);
}

/// Source bits 1, 3 and 4; at the watermark they are 0 (01, 'Register map').
#[test]
fn almost_full() {
    let mut bank = with_device();
    bank.write(0x140, 3);
    bank.write(0x180, 0x1106);
    for level in 1..=4 {
        started(&mut bank, &[0x111]);
        bank.receive(0, &[]);
        bank.finish(0, &mut []);
        bank.interrupt_request(8, 0, &[]);
        let expected = if level > 3 { 0x1a } else { 0 };
        assert_eq!(value_at(&mut bank, 0x88) & 0x1a, expected);
    }
    started(&mut bank, &[0x111]);
    bank.receive(0, &[]);
    assert_eq!(bank.finish(0, &mut []), refuse(NO_ROOM));
    assert_eq!(value_at(&mut bank, 0x100), 0);
}

/// The mask hides source bits; a 1 clears a stored one, hidden or not (01, 'Register map').
#[test]
fn pending_and_mask() {
    let mut bank = with_device();
    started(&mut bank, &[0x10]);
    bank.finish(0, &mut []);
    assert_eq!(value_at(&mut bank, 0x88), 0x25);
    assert_eq!(value_at(&mut bank, 0x84), 0);
    bank.write(0x80, 0x24);
    assert_eq!(value_at(&mut bank, 0x84), 0x24);
    assert_eq!(bank.write(0x84, 0xffff_ffdf), done(0));
    assert_eq!(value_at(&mut bank, 0x84), 0x24);
    bank.write(0x80, 0);
    assert_eq!(bank.write(0x84, 0x20), done(0));
    assert_eq!(value_at(&mut bank, 0x88), 0x05);
    assert_eq!(value_at(&mut bank, 0xc4), 1);
}

/// The read of the last entry clears bit 5 or 6, an earlier one does not (01, 'Register
/// map').
#[test]
fn emptying_reads_clear_pending() {
    let mut bank = with_device();
    bank.write(0x140, 3);
    bank.write(0x180, 0x1106);
    for _ in 0..2 {
        started(&mut bank, &[0x10]);
        bank.finish(0, &mut []);
        bank.interrupt_request(8, 0xff, &[]);
    }
    assert_eq!(value_at(&mut bank, 0x88), 0x65);
    assert_eq!(bank.read(0xd8), done(0));
    assert_eq!(value_at(&mut bank, 0x88), 0x65);
    assert_eq!(bank.read(0xd8), done(1));
    assert_eq!(value_at(&mut bank, 0x88), 0x45);
    assert_eq!(bank.read(0xe4), done(0x0010_0000));
    assert_eq!(value_at(&mut bank, 0x88), 0x45);
    assert_eq!(bank.read(0xe4), done(0x0010_0001));
    assert_eq!(value_at(&mut bank, 0x88), 0x05);
}

// Start.

/// Each refusal while those behind it would hold too (01, 'Bus events').
#[test]
fn start_order() {
    let mut bank = with_device();
    assert_eq!(bank.start(&[]), refuse(NO_COMMAND));
    bank.write(0x100, 1);
    assert_eq!(bank.start(&[]), refuse(NOT_IN_THIS_MODE));
    bank.write(0x100, 0);
    started(&mut bank, &[0x10]);
    bank.write(0x100, 1);
    assert_eq!(bank.start(&[]), refuse(TRANSFER_OPEN));
    assert_eq!(bank.finish(0, &mut []), done(0));
    bank.write(0x100, 0x7e);
    bank.write(0xdc, 0);
    bank.write(0xd4, CCC);
    assert_eq!(bank.start(&[]), refuse(NO_COMMAND));
    bank.write(0xd4, 7);
    assert_eq!(bank.start(&[]), refuse(SDO_NOT_EMPTY));
    assert_eq!(value_at(&mut bank, 0xc0), 2);
}

/// Bits that mean nothing come back too (01, 'Register map', 'Bus events').
#[test]
fn start_gives_the_whole_first_word() {
    let mut bank = released();
    started(&mut bank, &[0xffff_ffff, 0xffff_ff06]);
    assert_eq!(value_at(&mut bank, 0xc0), 4);
    assert_eq!(value_at(&mut bank, 0x100), 0);
}

/// A device attached or detached later makes no difference; broadcasts and ENTDAA need none
/// (01, 'Bus events').
#[test]
fn attached_is_noted_at_start() {
    let mut bank = with_device();
    started(&mut bank, &[PRIVATE_READ_5]);
    bank.write(0x180, 0x1100);
    assert_eq!(bank.receive(1, &[]), done(0));
    assert_eq!(bank.finish(8, &mut []), refuse(ENDING_NOT_ALLOWED));
    assert_eq!(bank.finish(0, &mut []), done(0x100));

    started(&mut bank, &[PRIVATE_READ_5]);
    bank.write(0x180, 0x1102);
    assert_eq!(bank.receive(1, &[]), refuse(NOT_ATTACHED));
    assert_eq!(bank.send(&[]), refuse(NOT_ATTACHED));
    assert_eq!(bank.finish(0, &mut []), refuse(ENDING_NOT_ALLOWED));
    assert_eq!(bank.finish(8, &mut []), done(0x0080_0001));

    for (second, number) in [
        (0x80, NOT_ATTACHED),
        (0x87, NOT_ATTACHED),
        (0x00, DONE),
        (0x06, DONE),
        (0x107, NOT_THIS_KIND),
    ] {
        let mut bank = released();
        started(&mut bank, &[CCC | 0x111, second]);
        assert_eq!(bank.receive(1, &[]).number, number, "{second:#x}");
    }
}

// Payload.

/// SDO loses a word with every fourth byte, from the first on; the next transfer begins
/// with a new one (01, 'Bus events').
#[test]
fn send_takes_words() {
    let mut bank = with_device();
    started(&mut bank, &[0x510]);
    assert_eq!(bank.send(&[]), refuse(SDO_EMPTY));
    bank.write(0xdc, 0x0102_0304);
    assert_eq!(value_at(&mut bank, 0xc8), 3);
    for byte in 1..=4 {
        assert_eq!(bank.send(&[]), done(byte));
        assert_eq!(value_at(&mut bank, 0xc8), 4);
    }
    assert_eq!(bank.send(&[]), refuse(SDO_EMPTY));
    for code in 0..=15 {
        assert_eq!(bank.finish(code, &mut []), refuse(ENDING_NOT_ALLOWED));
    }
    bank.write(0xdc, 0x0506_0708);
    bank.write(0xdc, 0x090a_0b0c);
    assert_eq!(bank.send(&[]), done(5));
    assert_eq!(bank.send(&[]), refuse(LENGTH_REACHED));
    assert_eq!(bank.finish(0, &mut []), done(0x500));
    started(&mut bank, &[0x110]);
    assert_eq!(bank.send(&[]), done(9));
}

/// Three bytes still come when SDI is full; the fourth, and a finish, need a place (01,
/// 'Bus events').
#[test]
fn receive_without_room() {
    let mut bank = with_device();
    started(&mut bank, &[0xf_ff11]);
    for byte in 0..16 {
        assert_eq!(bank.receive(byte, &[]), done(0));
    }
    for byte in 16..19 {
        assert_eq!(bank.receive(byte, &[]), done(0));
    }
    let before = bank.clone();
    assert_eq!(bank.receive(19, &[]), refuse(NO_ROOM));
    assert_eq!(bank.finish(0, &mut []), refuse(NO_ROOM));
    assert_eq!(bank, before);
    assert_eq!(bank.read(0xe0), done(0x0001_0203));
    assert_eq!(bank.receive(19, &[]), done(0));
    assert_eq!(value_at(&mut bank, 0xcc), 4);
    assert_eq!(bank.finish(0, &mut []), done(0x1400));
}

/// Bytes against the direction, and in ENTDAA; `NOT_THIS_KIND` goes before
/// `LENGTH_REACHED` (01, 'Bus events').
#[test]
fn wrong_direction() {
    let mut bank = with_device();
    started(&mut bank, &[0x11]);
    assert_eq!(bank.send(&[]), refuse(NOT_THIS_KIND));
    assert_eq!(bank.receive(0, &[]), refuse(LENGTH_REACHED));
    assert_eq!(bank.finish(0, &mut []), done(0));
    started(&mut bank, &[0x10]);
    assert_eq!(bank.receive(0, &[]), refuse(NOT_THIS_KIND));
    assert_eq!(bank.send(&[]), refuse(LENGTH_REACHED));
    assert_eq!(bank.finish(0, &mut []), done(1));
    for first in [CCC | 0x500, CCC | 0x501] {
        let mut bank = released();
        started(&mut bank, &[first, 7]);
        assert_eq!(bank.send(&[]), refuse(NOT_THIS_KIND));
        assert_eq!(bank.receive(0, &[]), refuse(NOT_THIS_KIND));
    }
    let mut bank = released();
    for answer in [
        bank.send(&[]),
        bank.receive(0, &[]),
        bank.finish(0, &mut []),
    ] {
        assert_eq!(answer, refuse(NO_TRANSFER));
    }
    assert_eq!(bank.address_request(0, 0, &[]), refuse(NO_TRANSFER));
    assert_eq!(bank.address_take(&[]), refuse(NO_TRANSFER));
}

// Endings.

/// The codes allowed after `moved` bytes of a transfer.
fn endings(words: &[u32], attached: bool, moved: usize) -> Vec<u8> {
    let mut bank = released();
    if attached {
        bank.write(0x180, 0x1102);
    }
    bank.write(0xdc, 0x0102_0304);
    started(&mut bank, words);
    for _ in 0..moved {
        let answer = if words[0] & 1 == 1 {
            bank.receive(1, &[])
        } else {
            bank.send(&[])
        };
        assert_eq!(answer.number, DONE);
    }
    (0..=15)
        .filter(|code| bank.clone().finish(*code, &mut []).number == DONE)
        .collect()
}

/// Every ending but ENTDAA's (01, 'Bus events').
#[test]
fn endings_allowed() {
    // Not attached.
    for words in [
        &[0x210][..],
        &[0x211],
        &[HEADER | 0x210],
        &[CCC | 0x211, 0x80],
    ] {
        assert_eq!(endings(words, false, 0), [8]);
    }
    // Private write.
    assert_eq!(endings(&[0x010], true, 0), [0, 6]);
    assert_eq!(endings(&[0x210], true, 0), [6]);
    assert_eq!(endings(&[0x210], true, 1), []);
    assert_eq!(endings(&[0x210], true, 2), [0]);
    // Private write with the header.
    assert_eq!(endings(&[HEADER | 0x010], true, 0), [0, 4, 6]);
    assert_eq!(endings(&[HEADER | 0x210], true, 0), [4, 6]);
    assert_eq!(endings(&[HEADER | 0x210], true, 1), []);
    assert_eq!(endings(&[HEADER | 0x210], true, 2), [0]);
    // Private read.
    assert_eq!(endings(&[0x011], true, 0), [0, 6]);
    assert_eq!(endings(&[0x211], true, 0), [0, 6]);
    assert_eq!(endings(&[0x211], true, 1), [0]);
    assert_eq!(endings(&[0x211], true, 2), [0]);
    assert_eq!(endings(&[HEADER | 0x211], true, 0), [0, 4, 6]);
    // Direct CCC.
    assert_eq!(endings(&[CCC | 0x010, 0x80], true, 0), [0, 4, 6]);
    assert_eq!(endings(&[CCC | 0x210, 0x80], true, 0), [4, 6]);
    assert_eq!(endings(&[CCC | 0x210, 0x80], true, 1), []);
    assert_eq!(endings(&[CCC | 0x210, 0x80], true, 2), [0]);
    assert_eq!(endings(&[CCC | 0x011, 0x80], true, 0), [0, 4, 6]);
    assert_eq!(endings(&[CCC | 0x211, 0x80], true, 0), [1, 4, 6]);
    assert_eq!(endings(&[CCC | 0x211, 0x80], true, 1), [1]);
    assert_eq!(endings(&[CCC | 0x211, 0x80], true, 2), [0]);
    // Broadcast CCC, with and without an attached device.
    for attached in [false, true] {
        assert_eq!(endings(&[CCC | 0x010, 6], attached, 0), [0, 4]);
        assert_eq!(endings(&[CCC | 0x210, 6], attached, 0), [4]);
        assert_eq!(endings(&[CCC | 0x210, 6], attached, 1), []);
        assert_eq!(endings(&[CCC | 0x210, 6], attached, 2), [0]);
        assert_eq!(endings(&[CCC | 0x011, 6], attached, 0), [0, 4]);
        assert_eq!(endings(&[CCC | 0x211, 6], attached, 0), [1, 4]);
        assert_eq!(endings(&[CCC | 0x211, 6], attached, 1), [1]);
        assert_eq!(endings(&[CCC | 0x211, 6], attached, 2), [0]);
    }
}

/// A refused finish pushes nothing and raises no sync (01, 'Bus events', 'Readings that
/// look right').
#[test]
fn finish_without_room() {
    let mut bank = with_device();
    for sync in 0..4 {
        started(&mut bank, &[0x10]);
        assert_eq!(bank.finish(0, &mut []), done(sync));
    }
    started(&mut bank, &[PRIVATE_READ_5]);
    bank.receive(7, &[]);
    let before = bank.clone();
    assert_eq!(bank.finish(0, &mut []), refuse(NO_ROOM));
    assert_eq!(bank.finish(1, &mut []), refuse(ENDING_NOT_ALLOWED));
    assert_eq!(bank.finish(16, &mut []), refuse(OUT_OF_RANGE));
    assert_eq!(bank, before);
    assert_eq!(bank.read(0xd8), done(0));
    assert_eq!(bank.finish(0, &mut []), done(0x104));
    assert_eq!(bank.read(0xe0), done(0x0700_0000));
}

// Interrupt requests.

/// Each refusal in its turn (01, 'Bus events').
#[test]
fn interrupt_order() {
    let mut bank = with_device();
    started(&mut bank, &[0x10]);
    assert_eq!(bank.interrupt_request(128, 0, &[]), refuse(OUT_OF_RANGE));
    assert_eq!(bank.interrupt_request(8, 0, &[]), refuse(TRANSFER_OPEN));
    bank.finish(0, &mut []);
    assert_eq!(bank.interrupt_request(8, 0, &[]), refuse(NOT_HEARD));
    bank.write(0x140, 1);
    assert_eq!(bank.interrupt_request(8, 0, &[]), refuse(NOT_HEARD));
    bank.write(0x140, 2);
    bank.write(0x180, 0x1106);
    assert_eq!(bank.interrupt_request(8, 0, &[]), refuse(NOT_ACKNOWLEDGED));
    bank.write(0x140, 3);
    bank.write(0x180, 0x1104);
    assert_eq!(bank.interrupt_request(8, 0, &[]), refuse(NOT_ACKNOWLEDGED));
    bank.write(0x180, 0x110a);
    assert_eq!(bank.interrupt_request(8, 0, &[]), refuse(NOT_ACKNOWLEDGED));
    bank.write(0x180, 0x1106);
    for sync in 0..4 {
        assert_eq!(
            bank.interrupt_request(8, 0xff, &[]),
            done(0x0010_0000 | sync)
        );
    }
    assert_eq!(bank.interrupt_request(8, 0xff, &[]), refuse(NO_ROOM));
    assert_eq!(bank.read(0xe4), done(0x0010_0000));
    assert_eq!(bank.interrupt_request(8, 0xff, &[]), done(0x0010_0004));
    assert_eq!(bank.interrupt_sync, 5);
    assert_eq!(bank.receipt_sync, 1);
}

// Address assignment.

/// Requests, takes and endings of one assignment (01, 'Bus events').
#[test]
fn entdaa() {
    let codes = |bank: &Bank| -> Vec<u8> {
        (0..=15)
            .filter(|code| bank.clone().finish(*code, &mut []).number == DONE)
            .collect()
    };
    let mut bank = released();
    started(&mut bank, &[CCC | 0x511, 0x107]);
    assert_eq!(codes(&bank), [0, 4]);
    assert_eq!(bank.address_take(&[]), refuse(NOT_THIS_KIND));
    assert_eq!(bank.address_request(0xaaaa_aaaa, 0x5555_5555, &[]), done(0));
    assert_eq!(value_at(&mut bank, 0x88), 0x85);
    assert_eq!(bank.address_request(0, 0, &[]), refuse(NOT_THIS_KIND));
    assert_eq!(bank.address_take(&[]), refuse(SDO_EMPTY));
    assert_eq!(codes(&bank), []);
    bank.write(0xdc, 0x10ff_ffff);
    assert_eq!(value_at(&mut bank, 0x88), 0x01);
    assert_eq!(bank.address_take(&[]), done(8));
    assert_eq!(value_at(&mut bank, 0x88), 0x05);
    assert_eq!(codes(&bank), [0]);
    assert_eq!(bank.address_take(&[]), refuse(NOT_THIS_KIND));
    assert_eq!(bank.address_request(1, 2, &[]), done(0));
    assert_eq!(bank.write(0xdc, 0x1300_0000), done(0));
    assert_eq!(bank.address_take(&[]), done(9));
    assert_eq!(bank.address_request(3, 4, &[]), refuse(NO_ROOM));
    assert_eq!(bank.read(0xe0), done(0xaaaa_aaaa));
    assert_eq!(bank.address_request(3, 4, &[]), refuse(NO_ROOM));
    assert_eq!(bank.read(0xe0), done(0x5555_5555));
    assert_eq!(bank.finish(0, &mut []), done(0));
    assert_eq!(bank.read(0xe0), done(1));
    assert_eq!(bank.read(0xe0), done(2));
}

/// Source bit 7 asks for a word only where none waits (01, 'Register map').
#[test]
fn pending_address() {
    let mut bank = released();
    started(&mut bank, &[CCC, 7]);
    bank.write(0xdc, 0x1100_0000);
    bank.write(0xdc, 0x1200_0000);
    assert_eq!(bank.address_request(1, 2, &[]), done(0));
    assert_eq!(value_at(&mut bank, 0x88) & 0x80, 0);
    let wrong_parity = |value| Answer {
        value,
        number: WRONG_PARITY,
    };
    assert_eq!(bank.address_take(&[]), wrong_parity(8));
    assert_eq!(value_at(&mut bank, 0x88) & 0x80, 0);
    assert_eq!(bank.address_take(&[]), wrong_parity(9));
    assert_eq!(value_at(&mut bank, 0x88) & 0x80, 0x80);
    assert_eq!(bank.finish(0, &mut []), refuse(ENDING_NOT_ALLOWED));
    bank.write(0x84, 0x80);
    assert_eq!(value_at(&mut bank, 0x88) & 0x80, 0);
    assert_eq!(bank.address_take(&[]), refuse(SDO_EMPTY));
    bank.write(0xdc, 0);
    assert_eq!(bank.address_take(&[]), wrong_parity(0));
    bank.write(0xdc, 0xfe00_0000);
    assert_eq!(bank.address_take(&[]), done(0x7f));
    assert_eq!(bank.finish(4, &mut []), refuse(ENDING_NOT_ALLOWED));
    assert_eq!(bank.finish(0, &mut []), done(0));
}

/// Other transfers refuse them; 0x87 is no ENTDAA (01, 'Bus events').
#[test]
fn address_events_need_entdaa() {
    for words in [&[0x10][..], &[0x1e], &[CCC, 6], &[CCC | 0x10, 0x87]] {
        let mut bank = with_device();
        started(&mut bank, words);
        assert_eq!(bank.address_request(0, 0, &[]), refuse(NOT_THIS_KIND));
        assert_eq!(bank.address_take(&[]), refuse(NOT_THIS_KIND));
    }
    let mut bank = with_device();
    bank.write(0xdc, 0);
    started(&mut bank, &[CCC | 0x10, 0x87]);
}

// Random calls against the count of demand 3.

struct Random(u64);

impl Random {
    fn next(&mut self) -> u32 {
        self.0 = self
            .0
            .wrapping_mul(6_364_136_223_846_793_005)
            .wrapping_add(1_442_695_040_888_963_407);
        (self.0 >> 33) as u32
    }

    fn below(&mut self, bound: u32) -> u32 {
        self.next() % bound
    }

    fn word(&mut self) -> u32 {
        self.next() << 16 ^ self.next()
    }

    fn one_of<T: Copy>(&mut self, choices: &[T]) -> T {
        choices[self.below(choices.len() as u32) as usize]
    }
}

fn random_command_word(random: &mut Random) -> u32 {
    match random.below(8) {
        0 => random.word(),
        1 => 7,
        2 => random.below(256),
        3 | 4 => CCC | random.below(0x900),
        _ => random.below(2) * HEADER | random.below(10) << 8 | 0x10 | random.below(4),
    }
}

/// A command of a burst, carried or not.
fn random_burst_command(random: &mut Random) -> u32 {
    match random.below(40) {
        0 => random.word(),
        _ => random.below(2) * HEADER | random.below(5) << 8 | 0x10 | random.below(4),
    }
}

fn random_write(random: &mut Random) -> Call {
    let (offset, value) = match random.below(21) {
        0..=4 => (0xd4, random_command_word(random)),
        5..=8 => (0xdc, random.word()),
        9 | 10 => (0x180, 0x1100 | random.below(0x400)),
        11 => (0x140, random.below(8) | random.below(2) * 3),
        12 => (0x100, random.one_of(&[0, 0, 0, 1, 3, 5, 7, 9, 0x1f])),
        13 => (0x84, random.word()),
        14 => (0x40, u32::from(random.below(8) == 0)),
        15..=18 => (
            0x2c0 + 4 * random.below(4) as u16,
            random_burst_command(random),
        ),
        19 => (0x200 + 4 * random.below(5) as u16, random.below(7)),
        _ => (random.below(0x344) as u16, random.word()),
    };
    Call::Write { offset, value }
}

fn random_call(random: &mut Random) -> Call {
    match random.below(22) {
        0..=4 => random_write(random),
        5..=7 => Call::Read {
            offset: random.one_of(&[0x88, 0xc0, 0xd8, 0xd8, 0xe0, 0xe0, 0xe4, 0x84, 0x100]),
        },
        8 | 9 => Call::Start,
        10 | 11 => Call::Send,
        12 | 13 => Call::Receive {
            byte: random.below(256) as u8,
        },
        14 | 15 => Call::Finish {
            code: random.one_of(&[0, 0, 0, 1, 4, 6, 8, 2, 15, 16]),
        },
        16 => Call::InterruptRequest {
            address: random.one_of(&[8, 8, 9, 0, 127, 128]),
            byte: random.below(256) as u8,
        },
        17 => Call::AddressRequest {
            first: random.word(),
            second: random.word(),
        },
        18 | 19 => Call::AddressTake,
        _ => Call::Trigger,
    }
}

/// What calls and answers tell, without a look into the bank (01, 'What demand 3 counts').
#[derive(Default)]
struct Count {
    released: bool,
    words: Vec<u32>,
    start_values: Vec<u32>,
    open: bool,
    moved: u32,
    receipts: Vec<u32>,
    receipts_read: Vec<u32>,
    room_seen: bool,
    offload_length: u32,
    /// Transfers of a burst that are still to come; demand 3 leaves them out (02 §3).
    burst_left: u32,
    /// What SDO and SDI hold, the word that is being sent and the bytes that fill no word
    /// yet (02 §13).
    sdo: VecDeque<u32>,
    sdi: VecDeque<u32>,
    sent: u32,
    gathered: Vec<u8>,
    /// The words read last at 0x0d8, 0x0e0 and 0x0e4 (02 §5).
    last_read: [u32; 3],
    empty_reads: usize,
    /// Words that failed writes removed from SDO (02 §2), and how many such writes found
    /// fewer than their length needs.
    removed: usize,
    removed_short: usize,
}

impl Count {
    /// One word each, two for a CCC.
    fn commands(&self) -> Vec<Vec<u32>> {
        let mut commands = Vec::new();
        let mut rest = self.words.as_slice();
        while let Some(first) = rest.first() {
            let size = if first & CCC != 0 { 2 } else { 1 };
            if rest.len() < size {
                break;
            }
            commands.push(rest[..size].to_vec());
            rest = &rest[size..];
        }
        commands
    }

    fn open_command(&self) -> Vec<u32> {
        self.commands()[self.start_values.len() - 1].clone()
    }

    /// A read of a queue shows a word; an empty one shows the same again.
    fn note_read(&mut self, offset: u16, answer: Answer) {
        let place = match offset {
            0xd8 => 0,
            0xe0 => 1,
            0xe4 => 2,
            _ => return,
        };
        match answer.number {
            DONE => self.last_read[place] = answer.value,
            number => {
                assert_eq!(number, EMPTY);
                assert_eq!(answer.value, self.last_read[place]);
                self.empty_reads += usize::from(answer.value != 0);
            }
        }
    }

    fn note(&mut self, call: &Call, answer: Answer) {
        if let Call::Read { offset } = *call {
            self.note_read(offset, answer);
        }
        if let Call::Write {
            offset: 0xd4,
            value,
        } = *call
        {
            if self.released && self.room_seen {
                assert_eq!(answer.number, DONE, "room was read, word refused");
            }
            self.room_seen = false;
            if answer.number == DONE {
                self.words.push(value);
            }
            return;
        }
        if *call == Call::AddressTake && [DONE, WRONG_PARITY].contains(&answer.number) {
            let word = self.sdo.pop_front().unwrap();
            assert_eq!(answer.value, word >> 25);
            let odd = (word >> 24).count_ones() % 2 == 1;
            assert_eq!(answer.number == DONE, odd);
        }
        if answer.number != DONE {
            return;
        }
        match *call {
            Call::Write {
                offset: 0xdc,
                value,
            } => self.sdo.push_back(value),
            Call::Write {
                offset: 0x40,
                value,
            } => self.note_enable(value),
            Call::Write {
                offset: 0x100,
                value,
            } => self.offload_length = value >> 1 & 0xf,
            Call::Trigger => {
                assert!(!self.open && self.burst_left == 0);
                self.burst_left = self.offload_length;
            }
            Call::Send | Call::Receive { .. } if self.burst_left > 0 => {}
            Call::Finish { .. } if self.burst_left > 0 => {
                assert_eq!(answer.value, 0);
                self.burst_left -= 1;
            }
            Call::Read { offset: 0xc0 } => {
                if answer.value > 0 {
                    self.room_seen = true;
                }
            }
            Call::Read { offset: 0xd8 } => self.receipts_read.push(answer.value),
            Call::Read { offset: 0xe0 } => {
                assert_eq!(self.sdi.pop_front(), Some(answer.value));
            }
            Call::Start => {
                assert!(!self.open && self.burst_left == 0);
                self.open = true;
                self.moved = 0;
                self.start_values.push(answer.value);
            }
            Call::Send | Call::Receive { .. } => self.note_payload(call, answer.value),
            Call::AddressRequest { first, second } => {
                assert!(self.open && is_entdaa(&self.open_command()));
                self.sdi.extend([first, second]);
            }
            Call::AddressTake => assert!(self.open && is_entdaa(&self.open_command())),
            Call::Finish { code } => self.note_finish(code, answer.value),
            _ => {}
        }
    }

    fn note_enable(&mut self, value: u32) {
        if value & 1 == 1 || !self.released {
            *self = Count {
                released: value & 1 == 0,
                offload_length: self.offload_length,
                removed: self.removed,
                removed_short: self.removed_short,
                empty_reads: self.empty_reads,
                ..Count::default()
            };
        }
    }

    fn note_payload(&mut self, call: &Call, value: u32) {
        assert!(self.open);
        let command = self.open_command();
        assert!(!is_entdaa(&command));
        assert_eq!(command[0] & 1 == 0, *call == Call::Send);
        if let Call::Receive { byte } = *call {
            self.gathered.push(byte);
            if self.gathered.len() == 4 {
                self.note_gathered();
            }
        } else {
            let place = self.moved % 4;
            if place == 0 {
                self.sent = self.sdo.pop_front().unwrap();
            }
            assert_eq!(self.sent >> (24 - 8 * place) & 0xff, value);
        }
        self.moved += 1;
    }

    /// The bytes received so far make a word, with zeros behind.
    fn note_gathered(&mut self) {
        self.gathered.resize(4, 0);
        let word = self.gathered.drain(..);
        self.sdi
            .push_back(word.fold(0, |word, byte| word << 8 | u32::from(byte)));
    }

    /// The whole receipt is known from the calls before it (00, demand 3).
    fn note_finish(&mut self, code: u8, receipt: u32) {
        assert!(self.open);
        self.open = false;
        let command = self.open_command();
        let length = if is_entdaa(&command) {
            0
        } else {
            command[0] >> 8 & 0xfff
        };
        assert!(self.moved <= length);
        if !self.gathered.is_empty() {
            self.note_gathered();
        }
        if !is_entdaa(&command) && command[0] & 1 == 0 && code != 0 {
            self.note_failed_write(length);
        }
        let sync = self.receipts.len() as u32 % 256;
        assert_eq!(receipt, u32::from(code) << 20 | self.moved << 8 | sync);
        self.receipts.push(receipt);
    }

    /// One word out of SDO for each four bytes, as long as there is one.
    fn note_failed_write(&mut self, mut length: u32) {
        while length > 0 && self.sdo.pop_front().is_some() {
            self.removed += 1;
            length = length.saturating_sub(4);
        }
        self.removed_short += usize::from(length > 0);
    }

    fn check(&self, bank: &Bank) {
        if !self.released {
            return;
        }
        assert_eq!(bank.sdo.words, self.sdo);
        assert_eq!(bank.sdi.words, self.sdi);
        let commands = self.commands();
        let started = self.start_values.len();
        assert!(started <= commands.len());
        let firsts: Vec<u32> = commands[..started].iter().map(|c| c[0]).collect();
        assert_eq!(firsts, self.start_values);
        let words_started: usize = commands[..started].iter().map(Vec::len).sum();
        assert!(bank.cmd.words.iter().eq(&self.words[words_started..]));
        assert_eq!(self.receipts.len(), started - usize::from(self.open));
        assert_eq!(bank.transfer.is_some(), self.open || self.burst_left > 0);
        assert_eq!(bank.burst_place().is_some(), self.burst_left > 0);
        assert!(self
            .receipts_read
            .iter()
            .chain(&bank.cmdr.words)
            .eq(&self.receipts));
    }
}

fn is_entdaa(command: &[u32]) -> bool {
    command.len() == 2 && command[1] & 0xff == 7
}

/// Well formed, as far as this engine has the parts (01, 'Numbers that come back'; 02 §3).
fn check_well_formed(bank: &Bank) {
    for queue in bank.queues() {
        assert!(queue.level() <= queue.capacity);
        assert!(queue.watermark <= queue.capacity);
        assert!(!bank.in_reset || queue.is_empty() && queue.last_read == 0);
    }
    if bank.in_reset {
        assert_eq!(bank.pending, Pending::default());
        assert_eq!((bank.receipt_sync, bank.interrupt_sync), (0, 0));
        assert!(bank.transfer.is_none());
    }
    assert!(!bank.pending.receipt || !bank.cmdr.is_empty());
    assert!(!bank.pending.interrupt || !bank.ibi.is_empty());
    assert!(!bank.pending.address || bank.sdo.is_empty());
    if let Some(transfer) = &bank.transfer {
        let moved = transfer.moved;
        assert!(moved <= transfer.command.length);
        assert!(transfer.attached || moved == 0);
        let (left, gathered) = (transfer.left.len() as u32, transfer.gathered.len() as u32);
        if let Some(place) = transfer.burst_place {
            // The trigger would not refuse it, the transfer is its command's, and a read
            // keeps every byte.
            let commands = bank.burst_commands();
            assert!(bank.is_in_offload_mode());
            assert!(commands.iter().all(|word| is_carried(*word)));
            assert_eq!(transfer.command, parse_command(commands[place], None));
            let counts = if transfer.is_read() {
                (0, moved)
            } else {
                (4 - moved, 0)
            };
            assert_eq!((left, gathered), counts);
        } else if transfer.is_read() {
            assert_eq!((left, gathered), (0, moved % 4));
        } else {
            assert_eq!((left, gathered), ((4 - moved % 4) % 4, 0));
        }
    }
}

#[test]
fn random_calls_keep_demand_3() {
    let mut seen = [false; 1 + WATERMARK_ABOVE_CAPACITY as usize];
    let mut most_receipts = 0;
    let mut words_written = 0;
    let mut removed = 0;
    let mut removed_short = 0;
    let mut empty_reads = 0;
    for seed in 0..60 {
        let mut random = Random(seed);
        let numbers = SetupNumbers {
            capacities: [
                2 + random.below(4),
                1 + random.below(4),
                1 + random.below(4),
                2 + random.below(4),
                1 + random.below(4),
            ],
            watermarks: [
                random.below(3),
                random.below(2),
                random.below(2),
                random.below(3),
                random.below(2),
            ],
            id: random.below(256),
        };
        let (mut bank, answer) = set_up(&numbers);
        assert_eq!(answer, done(0));
        let mut count = Count::default();
        let mut output = [u32::MAX; 5];
        for _ in 0..6000 {
            let call = random_call(&mut random);
            let before = bank.clone();
            let output_before = output;
            let lent = random.one_of(&[0, 1, 3, 5, 5, 5, 5, 5]);
            let answer = bank.call(&call, &mut output[..lent]);
            if output != output_before {
                // A read of a burst finished.
                assert!(matches!(call, Call::Finish { .. }) && before.burst_place().is_some());
                words_written += 1;
            }
            seen[usize::from(answer.number)] = true;
            if answer.number != DONE && answer.number != WRONG_PARITY {
                // What an empty read shows is counted.
                assert!(answer.value == 0 || answer.number == EMPTY);
                assert_eq!(bank, before);
            }
            count.note(&call, answer);
            count.check(&bank);
            check_well_formed(&bank);
            most_receipts = most_receipts.max(count.receipts.len());
        }
        removed += count.removed;
        removed_short += count.removed_short;
        empty_reads += count.empty_reads;
    }
    // Every number but those that need a bank or store not well formed, a set-up or
    // a trace.
    let not_seen: Vec<u8> = (DONE..=WATERMARK_ABOVE_CAPACITY)
        .filter(|number| !seen[usize::from(*number)])
        .collect();
    let expected = [
        NOT_WELL_FORMED,
        STORE_LENGTH,
        SET_UP_OUT_OF_RANGE,
        WRONG_MARK,
        WRONG_TABLE,
        NO_SUCH_SECTION,
        WRONG_RECORD,
    ];
    assert_eq!(not_seen, expected);
    assert!(most_receipts > 0);
    assert!(words_written > 500);
    assert!(removed > 50 && removed_short > 10);
    assert!(empty_reads > 1000);
}
