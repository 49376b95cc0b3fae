//! Tests of what CMDR, SDI and IBI show to a read that finds them empty (02 §5).

use super::*;

const CMDR: u16 = 0xd8;
const SDI: u16 = 0xe0;
const IBI: u16 = 0xe4;
const QUEUES: [u16; 3] = [CMDR, SDI, IBI];

/// The answer of an empty queue from which this word was read last.
fn empty(value: u32) -> Answer {
    Answer {
        value,
        number: EMPTY,
    }
}

/// Released; device 8 is attached, may interrupt and sends a byte.
fn listening() -> Bank {
    let mut bank = released();
    assert_eq!(bank.write(0x140, 3), done(0));
    assert_eq!(bank.write(0x180, 0x110e), done(0));
    bank
}

/// A private read of one byte, whose word and receipt are returned.
fn queue_byte(bank: &mut Bank, byte: u8) -> (u32, u32) {
    started(bank, &[0x111]);
    assert_eq!(bank.receive(byte, &[]), done(0));
    let receipt = bank.finish(0, &mut []);
    assert_eq!(receipt.number, DONE);
    (u32::from(byte) << 24, receipt.value)
}

/// A word in each of the three queues; returned in their order.
fn queue_words(bank: &mut Bank, byte: u8) -> [u32; 3] {
    let (word, receipt) = queue_byte(bank, byte);
    let entry = bank.interrupt_request(8, byte, &[]);
    assert_eq!(entry.number, DONE);
    [receipt, word, entry.value]
}

fn read_words(bank: &mut Bank, words: [u32; 3]) {
    for (offset, word) in QUEUES.into_iter().zip(words) {
        assert_eq!(bank.read(offset), done(word));
    }
}

#[track_caller]
fn assert_shown(bank: &mut Bank, words: [u32; 3]) {
    for (offset, word) in QUEUES.into_iter().zip(words) {
        assert_eq!(bank.read(offset), empty(word), "{offset:#x}");
    }
}

#[test]
fn none_read_shows_0() {
    assert_shown(&mut fresh(), [0; 3]);
    assert_shown(&mut released(), [0; 3]);
}

/// As often as it is read, and each queue its own.
#[test]
fn the_word_read_last_again() {
    let mut bank = listening();
    let words = queue_words(&mut bank, 0x5a);
    for (offset, word) in QUEUES.into_iter().zip(words) {
        assert_eq!(bank.read(offset), done(word));
        for _ in 0..3 {
            assert_eq!(bank.read(offset), empty(word));
        }
    }
    assert_shown(&mut bank, words);
}

/// Of several words the one that came last; a later one takes its place only when it is
/// read.
#[test]
fn the_last_of_several() {
    let mut bank = listening();
    let first = queue_words(&mut bank, 1);
    let second = queue_words(&mut bank, 2);
    read_words(&mut bank, first);
    read_words(&mut bank, second);
    assert_shown(&mut bank, second);
    let third = queue_words(&mut bank, 3);
    read_words(&mut bank, third);
    assert_shown(&mut bank, third);
}

/// A word of 0 is a word.
#[test]
fn a_word_of_0_read_last() {
    let mut bank = listening();
    let (word, _) = queue_byte(&mut bank, 0x5a);
    queue_byte(&mut bank, 0);
    assert_eq!(bank.read(SDI), done(word));
    assert_eq!(bank.read(SDI), done(0));
    assert_eq!(bank.read(SDI), empty(0));
}

/// Both words of an address request go through SDI.
#[test]
fn words_of_an_address_request() {
    let mut bank = released();
    started(&mut bank, &[CCC, 7]);
    assert_eq!(bank.address_request(0xaaaa_aaaa, 0x5555_5555, &[]), done(0));
    assert_eq!(bank.read(SDI), done(0xaaaa_aaaa));
    assert_eq!(bank.read(SDI), done(0x5555_5555));
    assert_eq!(bank.read(SDI), empty(0x5555_5555));
}

/// The number stays, and with it that nothing changes: levels, status and source too.
#[test]
fn an_empty_read_changes_nothing() {
    let mut bank = listening();
    let words = queue_words(&mut bank, 0x5a);
    read_words(&mut bank, words);
    queue_byte(&mut bank, 1);
    assert_eq!(value_at(&mut bank, 0x88), 0x25);
    let before = bank.clone();
    assert_eq!(bank.read(IBI), empty(words[2]));
    assert_eq!(bank, before);
    assert_eq!(value_at(&mut bank, 0xd0), 0);
    assert_eq!(value_at(&mut bank, 0xe8), 2);
    assert_eq!(value_at(&mut bank, 0x88), 0x25);
}

/// In reset and after the next release; a release when released forgets nothing.
#[test]
fn a_reset_forgets() {
    let mut bank = listening();
    let words = queue_words(&mut bank, 0x5a);
    read_words(&mut bank, words);
    assert_eq!(bank.write(0x40, 0), done(0));
    assert_shown(&mut bank, words);
    assert_eq!(bank.write(0x40, 1), done(0));
    assert_shown(&mut bank, [0; 3]);
    assert_eq!(bank.write(0x40, 0), done(0));
    assert_shown(&mut bank, [0; 3]);
}

/// Words that leave CMD and SDO show nowhere, nor does what a burst reads.
#[test]
fn words_that_no_read_takes() {
    let mut bank = with_device();
    assert_eq!(bank.write(0xdc, 0x0102_0304), done(0));
    started(&mut bank, &[0x110]);
    assert_eq!(bank.send(&[]), done(1));
    assert_eq!(bank.finish(0, &mut []), done(0x100));
    assert_eq!(bank.read(0xd4), done(0));
    assert_eq!(bank.read(0xdc), done(0));
    assert_eq!(bank.write(0x2c0, 0x111), done(0));
    assert_eq!(bank.write(0x100, 3), done(0));
    let mut output = [0];
    assert_eq!(bank.trigger(&output), done(0));
    assert_eq!(bank.receive(0x5a, &output), done(0));
    assert_eq!(bank.finish(0, &mut output), done(0));
    assert_eq!(bank.read(CMDR), done(0x100));
    assert_shown(&mut bank, [0x100, 0, 0]);
}

/// The other refusals of the three offsets, and near them, have no value.
#[test]
fn other_refusals_show_nothing() {
    let mut bank = listening();
    let words = queue_words(&mut bank, 0x5a);
    read_words(&mut bank, words);
    for offset in QUEUES {
        assert_eq!(bank.write(offset, 1), refuse(DROPPED_READ_ONLY));
        assert_eq!(bank.read(offset + 1), refuse(NO_REGISTER));
    }
    assert_shown(&mut bank, words);
    let (mut bank, _) = set_up(&ZERO_NUMBERS);
    for offset in QUEUES {
        assert_eq!(bank.read(offset), refuse(NOT_WELL_FORMED));
    }
}
