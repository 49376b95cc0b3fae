//! Tests of the watermarks that the driver sets (02 §6).

use super::*;

/// By the number of the queue.
const WATERMARKS: [u16; 5] = [0x200, 0x204, 0x208, 0x20c, 0x210];

/// All different, so that no queue can be taken for another.
const NUMBERS: SetupNumbers = SetupNumbers {
    capacities: [6, 7, 8, 9, 10],
    watermarks: [5, 4, 3, 2, 1],
    id: 0,
};

fn in_reset() -> Bank {
    set_up(&NUMBERS).0
}

/// Device 8 is attached and may interrupt.
fn out_of_reset() -> Bank {
    let mut bank = in_reset();
    for (offset, value) in [(0x40, 0), (0x140, 3), (0x180, 0x1106)] {
        assert_eq!(bank.write(offset, value), done(0));
    }
    bank
}

fn watermarks(bank: &mut Bank) -> [u32; 5] {
    WATERMARKS.map(|offset| value_at(bank, offset))
}

#[test]
fn set_up_gives_the_first_values() {
    assert_eq!(watermarks(&mut in_reset()), NUMBERS.watermarks);
    assert_eq!(watermarks(&mut out_of_reset()), NUMBERS.watermarks);
}

/// Each for its own queue, from 0 to what fits; in reset too.
#[test]
fn written_and_read() {
    for (n, offset) in WATERMARKS.into_iter().enumerate() {
        for value in 0..=NUMBERS.capacities[n] {
            for mut bank in [in_reset(), out_of_reset()] {
                let mut expected = NUMBERS.watermarks;
                expected[n] = value;
                assert_eq!(bank.write(offset, value), done(0));
                assert_eq!(watermarks(&mut bank), expected);
            }
        }
    }
}

/// It is the queue's own capacity that bounds it, and nothing changes. No other number goes
/// before but those of the bank and the offset.
#[test]
fn above_the_capacity() {
    for (n, offset) in WATERMARKS.into_iter().enumerate() {
        let capacity = NUMBERS.capacities[n];
        for value in [capacity + 1, 11, 1024, 1025, 0x8000, 0xffff] {
            for mut bank in [in_reset(), out_of_reset()] {
                let before = bank.clone();
                assert_eq!(
                    bank.write(offset, value),
                    refuse(WATERMARK_ABOVE_CAPACITY),
                    "{offset:#x} {value}"
                );
                assert_eq!(bank.write(offset + 2, value), refuse(NO_REGISTER));
                assert_eq!(bank, before);
            }
        }
        let (mut refused, _) = set_up(&ZERO_NUMBERS);
        assert_eq!(refused.write(offset, 1), refuse(NOT_WELL_FORMED));
    }
}

/// What is refused does not depend on the watermark of before, and no other register asks
/// for a bound.
#[test]
fn only_watermarks_have_a_bound() {
    let mut bank = out_of_reset();
    assert_eq!(bank.write(0x200, 0), done(0));
    assert_eq!(bank.write(0x200, 7), refuse(WATERMARK_ABOVE_CAPACITY));
    assert_eq!(bank.write(0x200, 6), done(0));
    assert_eq!(bank.write(0x088, u32::MAX), refuse(DROPPED_READ_ONLY));
    assert_eq!(bank.write(0x008, u32::MAX), done(0));
    assert_eq!(bank.write(0x2c0, u32::MAX), done(0));
}

/// Bits 31:16 of what is written don't count, neither for the value nor for the bound.
#[test]
fn sixteen_bits() {
    for (n, offset) in WATERMARKS.into_iter().enumerate() {
        let capacity = NUMBERS.capacities[n];
        let mut bank = in_reset();
        for value in [0, 1, capacity] {
            assert_eq!(bank.write(offset, 0xffff_0000 | value), done(0));
            assert_eq!(bank.read(offset), done(value));
        }
        assert_eq!(
            bank.write(offset, 0x0001_0000 | (capacity + 1)),
            refuse(WATERMARK_ABOVE_CAPACITY)
        );
        assert_eq!(bank.read(offset), done(capacity));
    }
    let greatest = SetupNumbers {
        capacities: [1024; 5],
        watermarks: [0; 5],
        id: 0,
    };
    let (mut bank, _) = set_up(&greatest);
    for offset in WATERMARKS {
        assert_eq!(bank.write(offset, 1024), done(0));
        assert_eq!(bank.read(offset), done(1024));
        assert_eq!(bank.write(offset, 1025), refuse(WATERMARK_ABOVE_CAPACITY));
    }
}

/// Also a reset in reset; a new set-up has its own.
#[test]
fn a_reset_leaves_them() {
    let written = [1, 2, 3, 4, 5];
    let mut bank = out_of_reset();
    for (offset, value) in WATERMARKS.into_iter().zip(written) {
        assert_eq!(bank.write(offset, value), done(0));
    }
    for enable in [1, 1, 0] {
        assert_eq!(bank.write(0x40, enable), done(0));
        assert_eq!(watermarks(&mut bank), written);
    }
    assert_eq!(watermarks(&mut in_reset()), NUMBERS.watermarks);
}

/// Puts two words into each queue; a read of 8 bytes is open then.
fn two_words_each(bank: &mut Bank) {
    for byte in 0..2 {
        started(bank, &[0x10]);
        assert_eq!(bank.finish(0, &mut []).number, DONE);
        assert_eq!(bank.interrupt_request(8, byte, &[]).number, DONE);
        assert_eq!(bank.write(0xdc, 0), done(0));
    }
    started(bank, &[0x811]);
    for byte in 0..8 {
        assert_eq!(bank.receive(byte, &[]), done(0));
    }
    for _ in 0..2 {
        assert_eq!(bank.write(0xd4, 0x10), done(0));
    }
}

/// Below for CMD and SDO, above for the others, neither at the level itself.
#[test]
fn source_bits_follow_at_once() {
    let mut bank = out_of_reset();
    two_words_each(&mut bank);
    bank.write(0x80, 0xff);
    for (n, offset) in WATERMARKS.into_iter().enumerate() {
        let almost_empty = n == 0 || n == 2;
        for watermark in [0, 1, 2, 3, 4, 1, 6, 2] {
            let before = value_at(&mut bank, 0x88);
            assert_eq!(bank.write(offset, watermark), done(0));
            let set = if almost_empty {
                2 < watermark
            } else {
                2 > watermark
            };
            let expected = before & !(1 << n) | u32::from(set) << n;
            assert_eq!(
                value_at(&mut bank, 0x88),
                expected,
                "{offset:#x} {watermark}"
            );
            assert_eq!(value_at(&mut bank, 0x84), expected);
        }
    }
}

/// In reset the queues are empty.
#[test]
fn source_bits_in_reset() {
    let mut bank = in_reset();
    assert_eq!(value_at(&mut bank, 0x88), 0x05);
    bank.write(0x200, 0);
    assert_eq!(value_at(&mut bank, 0x88), 0x04);
    bank.write(0x208, 0);
    assert_eq!(value_at(&mut bank, 0x88), 0x00);
    for offset in [0x204, 0x20c, 0x210] {
        bank.write(offset, 0);
    }
    assert_eq!(value_at(&mut bank, 0x88), 0x00);
}

/// Neither set nor cleared by any watermark, taken or refused.
#[test]
fn pending_bits_do_not_move() {
    let mut set = out_of_reset();
    started(&mut set, &[0x10]);
    assert_eq!(set.finish(0, &mut []), done(0));
    assert_eq!(set.interrupt_request(8, 0, &[]).number, DONE);
    started(&mut set, &[CCC, 7]);
    assert_eq!(set.address_request(1, 2, &[]), done(0));
    assert_eq!(value_at(&mut set, 0x88) & 0xe0, 0xe0);
    let mut clear = set.clone();
    assert_eq!(clear.write(0x84, 0xe0), done(0));
    for (mut bank, pending) in [(set, 0xe0), (clear, 0)] {
        for offset in WATERMARKS {
            for value in [0, 1, 2, 6, 7, 0xffff] {
                bank.write(offset, value);
                assert_eq!(value_at(&mut bank, 0x88) & 0xe0, pending);
            }
        }
    }
}

/// An open transfer or burst is no bar, and goes on as before.
#[test]
fn written_in_a_transfer_or_a_burst() {
    let mut bank = out_of_reset();
    started(&mut bank, &[0x111]);
    assert_eq!(bank.write(0x20c, 0), done(0));
    assert_eq!(bank.receive(0x5a, &[]), done(0));
    assert_eq!(bank.finish(0, &mut []), done(0x100));
    assert_eq!(value_at(&mut bank, 0x88) & 0x08, 0x08);

    assert_eq!(bank.write(0x2c0, 0x110), done(0));
    assert_eq!(bank.write(0x300, 0xa500_0000), done(0));
    assert_eq!(bank.write(0x100, 3), done(0));
    assert_eq!(bank.trigger(&[]), done(0));
    assert_eq!(bank.write(0x100, 3), refuse(TRANSFER_OPEN));
    assert_eq!(bank.write(0x20c, 1), done(0));
    assert_eq!(bank.write(0x20c, 10), refuse(WATERMARK_ABOVE_CAPACITY));
    assert_eq!(value_at(&mut bank, 0x88) & 0x08, 0);
    assert_eq!(bank.send(&[]), done(0xa5));
    assert_eq!(bank.finish(0, &mut []), done(0));
}

/// A watermark holds nothing back: a queue still takes words up to its capacity.
#[test]
fn capacities_stay() {
    let mut bank = out_of_reset();
    assert_eq!(bank.write(0x200, 0), done(0));
    for _ in 0..NUMBERS.capacities[0] {
        assert_eq!(bank.write(0xd4, 0x10), done(0));
    }
    assert_eq!(bank.write(0xd4, 0x10), refuse(DROPPED_FULL));
    assert_eq!(value_at(&mut bank, 0xc0), 0);
}
