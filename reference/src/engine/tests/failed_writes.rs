//! Tests of what a write leaves in SDO when it fails (02 §2).

use super::*;

/// A private write to device 8, and to device 9, which is not attached; the length is added.
const WRITE: u32 = 0x10;
const OTHER_WRITE: u32 = 0x12;
const READ: u32 = 0x11;
const OTHER_READ: u32 = 0x13;
/// Second words of a CCC.
const DIRECT: u32 = 0x80;
const BROADCAST: u32 = 0x06;
const ENTDAA: u32 = 0x07;

/// The places of SDO here.
const PLACES: u32 = 6;

/// The n-th word written to SDO, from 0; no two bytes of all are the same.
fn data_word(n: u32) -> u32 {
    0x0102_0304 + n * 0x0404_0404
}

/// Device 8 attached, and so many words in SDO.
fn with_data(words: u32) -> Bank {
    let numbers = SetupNumbers {
        capacities: [4, 4, PLACES, 4, 4],
        ..SESSION_NUMBERS
    };
    let (mut bank, _) = set_up(&numbers);
    assert_eq!(bank.write(0x40, 0), done(0));
    assert_eq!(bank.write(0x180, 0x1102), done(0));
    for n in 0..words {
        assert_eq!(bank.write(0xdc, data_word(n)), done(0));
    }
    bank
}

/// Asserts that SDO has exactly these words, by their numbers.
#[track_caller]
fn assert_data(bank: &Bank, words: std::ops::Range<u32>) {
    let expected: Vec<u32> = words.map(data_word).collect();
    assert_eq!(bank.sdo.words, expected);
}

fn length(bytes: u32) -> u32 {
    bytes << 8
}

/// The words of each kind of write with this length, and the codes by which it can fail.
fn failing_writes(bytes: u32) -> Vec<(Vec<u32>, &'static [u8])> {
    let command = |word: u32| word | length(bytes);
    vec![
        (vec![command(WRITE)], &[6]),
        (vec![command(HEADER | WRITE)], &[4, 6]),
        (vec![command(CCC | WRITE), DIRECT], &[4, 6]),
        (vec![command(CCC | WRITE), 0x87], &[4, 6]),
        (vec![command(CCC | WRITE), BROADCAST], &[4]),
        (vec![command(CCC | HEADER | OTHER_WRITE), BROADCAST], &[4]),
        (vec![command(OTHER_WRITE)], &[8]),
        (vec![command(HEADER | OTHER_WRITE)], &[8]),
        (vec![command(CCC | OTHER_WRITE), DIRECT], &[8]),
    ]
}

/// Each kind, code and level of SDO, with lengths that need fewer words, as many and more.
#[test]
fn the_words_of_its_length_are_removed() {
    let needs = [
        (0, 0),
        (1, 1),
        (2, 1),
        (3, 1),
        (4, 1),
        (5, 2),
        (7, 2),
        (8, 2),
        (9, 3),
        (12, 3),
        (23, 6),
        (24, 6),
        (25, 7),
        (4092, 1023),
        (4095, 1024),
    ];
    let mut tried = 0;
    for (bytes, need) in needs {
        for (words, codes) in failing_writes(bytes) {
            for (code, level) in codes
                .iter()
                .flat_map(|c| (0..=PLACES).map(move |l| (*c, l)))
            {
                let mut bank = with_data(level);
                started(&mut bank, &words);
                assert_data(&bank, 0..level);
                let receipt = u32::from(code) << 20;
                assert_eq!(bank.finish(code, &mut []), done(receipt));
                assert_data(&bank, need.min(level)..level);
                // All is as if only the other words had been written, and after the finish.
                let mut without = with_data(0);
                started(&mut without, &words);
                assert_eq!(without.finish(code, &mut []), done(receipt));
                for n in need.min(level)..level {
                    assert_eq!(without.write(0xdc, data_word(n)), done(0));
                }
                assert_eq!(bank, without);
                tried += 1;
            }
        }
    }
    assert_eq!(tried, 15 * 12 * 7);
}

/// The case of the request: the next message has its own bytes.
#[test]
fn the_next_write_sends_its_own_bytes() {
    for (words, codes) in failing_writes(6) {
        for code in codes {
            let mut bank = with_data(2);
            started(&mut bank, &words);
            assert_eq!(bank.finish(*code, &mut []), done(u32::from(*code) << 20));
            assert_eq!(bank.write(0xdc, 0xa5c3_0000), done(0));
            started(&mut bank, &[WRITE | length(2)]);
            assert_eq!(bank.send(&[]), done(0xa5));
            assert_eq!(bank.send(&[]), done(0xc3));
            assert_eq!(bank.finish(0, &mut []), done(0x201));
            assert_data(&bank, 0..0);
        }
    }
}

/// Data for two writes lies in SDO when the first one fails.
#[test]
fn the_data_of_the_next_write_stays() {
    let mut bank = with_data(3);
    started(&mut bank, &[WRITE | length(5)]);
    assert_eq!(bank.finish(6, &mut []), done(0x0060_0000));
    started(&mut bank, &[WRITE | length(1)]);
    assert_eq!(bank.send(&[]), done(data_word(2) >> 24));
}

/// What counts is SDO at the finish: words that came in the transfer are removed, words
/// that come after it are not, though fewer were there than the length needs.
#[test]
fn words_before_and_after_the_finish() {
    let mut bank = with_data(1);
    started(&mut bank, &[WRITE | length(16)]);
    assert_eq!(bank.write(0xdc, data_word(1)), done(0));
    assert_eq!(bank.finish(6, &mut []), done(0x0060_0000));
    assert_data(&bank, 0..0);
    assert_eq!(bank.write(0xdc, data_word(2)), done(0));
    assert_eq!(bank.write(0xdc, data_word(3)), done(0));
    assert_data(&bank, 2..4);
    // Nor does the next transfer remove them.
    started(&mut bank, &[WRITE]);
    assert_eq!(bank.finish(6, &mut []), done(0x0060_0001));
    started(&mut bank, &[WRITE | length(4)]);
    assert_data(&bank, 2..4);
    assert_eq!(bank.send(&[]), done(data_word(2) >> 24));
}

/// Each failed write removes its own.
#[test]
fn one_failed_write_after_another() {
    let mut bank = with_data(6);
    for (sync, bytes, left) in [(0, 4, 1), (1, 0, 1), (2, 8, 3), (3, 9, 6)] {
        started(&mut bank, &[WRITE | length(bytes)]);
        assert_eq!(bank.finish(6, &mut []), done(0x0060_0000 | sync));
        assert_data(&bank, left..6);
    }
}

/// Only the words that it sent are gone.
#[test]
fn a_write_that_succeeds_removes_no_more() {
    for words in [
        vec![WRITE | length(5)],
        vec![HEADER | WRITE | length(5)],
        vec![CCC | WRITE | length(5), DIRECT],
        vec![CCC | length(5), BROADCAST],
    ] {
        let mut bank = with_data(5);
        started(&mut bank, &words);
        for _ in 0..5 {
            assert_eq!(bank.send(&[]).number, DONE);
        }
        assert_eq!(bank.finish(0, &mut []), done(0x500));
        assert_data(&bank, 2..5);
        started(&mut bank, &[WRITE]);
        assert_eq!(bank.finish(0, &mut []), done(1));
        assert_data(&bank, 2..5);
    }
}

/// Reads of every kind, with every code that can end them.
#[test]
fn reads_remove_none() {
    let reads: [(&[u32], &[u8]); 7] = [
        (&[READ], &[0, 6]),
        (&[HEADER | READ], &[0, 4, 6]),
        (&[CCC | READ, DIRECT], &[1, 4, 6]),
        (&[CCC | READ, BROADCAST], &[1, 4]),
        (&[OTHER_READ], &[8]),
        (&[HEADER | OTHER_READ], &[8]),
        (&[CCC | OTHER_READ, DIRECT], &[8]),
    ];
    for (words, codes) in reads {
        for code in codes {
            let mut bank = with_data(4);
            let mut words = words.to_vec();
            words[0] |= length(8);
            started(&mut bank, &words);
            assert_eq!(bank.finish(*code, &mut []), done(u32::from(*code) << 20));
            assert_data(&bank, 0..4);
        }
    }
}

/// ENTDAA is no write, even with a length and the read bit clear. It starts with SDO empty,
/// so the words come later.
#[test]
fn entdaa_removes_none() {
    for first in [CCC, CCC | length(8), CCC | READ | length(8)] {
        for code in [0, 4] {
            let mut bank = with_data(0);
            started(&mut bank, &[first, ENTDAA]);
            for n in 0..3 {
                assert_eq!(bank.write(0xdc, data_word(n)), done(0));
            }
            assert_eq!(bank.finish(code, &mut []), done(u32::from(code) << 20));
            assert_data(&bank, 0..3);
        }
    }
}

/// After a failed write SDO can be empty, and then an ENTDAA starts.
#[test]
fn entdaa_after_a_failed_write() {
    for (words, number) in [(2, DONE), (3, SDO_NOT_EMPTY)] {
        let mut bank = with_data(words);
        started(&mut bank, &[WRITE | length(8)]);
        assert_eq!(bank.finish(6, &mut []), done(0x0060_0000));
        assert_eq!(bank.write(0xd4, CCC), done(0));
        assert_eq!(bank.write(0xd4, ENTDAA), done(0));
        assert_eq!(bank.start(&[]).number, number);
    }
}

/// However it is refused, the finish leaves all as it was; once accepted it removes once.
#[test]
fn refused_finishes_remove_none() {
    let mut bank = with_data(6);
    for sync in 0..4 {
        started(&mut bank, &[WRITE]);
        assert_eq!(bank.finish(0, &mut []), done(sync));
    }
    started(&mut bank, &[WRITE | length(7)]);
    let before = bank.clone();
    for code in [0, 1, 4, 8, 15] {
        assert_eq!(bank.finish(code, &mut []), refuse(ENDING_NOT_ALLOWED));
    }
    assert_eq!(bank.finish(16, &mut []), refuse(OUT_OF_RANGE));
    for _ in 0..3 {
        assert_eq!(bank.finish(6, &mut []), refuse(NO_ROOM));
    }
    assert_eq!(bank, before);
    assert_eq!(bank.read(0xd8), done(0));
    assert_eq!(bank.finish(6, &mut []), done(0x0060_0004));
    assert_data(&bank, 2..6);
    assert_eq!(bank.finish(6, &mut []), refuse(NO_TRANSFER));
    assert_data(&bank, 2..6);
    // The same for the other two codes.
    for (words, code) in [
        (vec![CCC | length(7), BROADCAST], 4),
        (vec![OTHER_WRITE | length(7)], 8),
    ] {
        let mut bank = before.clone();
        bank.transfer = None;
        started(&mut bank, &words);
        assert_eq!(bank.finish(6, &mut []), refuse(ENDING_NOT_ALLOWED));
        assert_eq!(bank.finish(code, &mut []), refuse(NO_ROOM));
        assert_data(&bank, 0..6);
        assert_eq!(bank.read(0xd8), done(0));
        let receipt = u32::from(code) << 20 | 4;
        assert_eq!(bank.finish(code, &mut []), done(receipt));
        assert_data(&bank, 2..6);
    }
    // In reset nothing is left to remove.
    let mut bank = before;
    assert_eq!(bank.write(0x40, 1), done(0));
    assert_eq!(bank.finish(6, &mut []), refuse(HELD_IN_RESET));
}

/// A write that has sent a byte can't fail.
#[test]
fn a_byte_sent_rules_the_codes_out() {
    let mut bank = with_data(3);
    started(&mut bank, &[HEADER | WRITE | length(8)]);
    assert_eq!(bank.send(&[]), done(1));
    for code in [4, 6, 8] {
        assert_eq!(bank.finish(code, &mut []), refuse(ENDING_NOT_ALLOWED));
    }
    assert_data(&bank, 1..3);
}

/// A burst has its data elsewhere; words in SDO are for direct commands (02 §3).
#[test]
fn bursts_remove_none() {
    for (command, code) in [
        (WRITE | length(4), 6),
        (HEADER | WRITE | length(4), 4),
        (OTHER_WRITE | length(4), 8),
        (WRITE, 6),
    ] {
        let mut bank = with_data(6);
        assert_eq!(bank.write(0x2c0, command), done(0));
        assert_eq!(bank.write(0x2c4, command), done(0));
        assert_eq!(bank.write(0x100, 0b101), done(0));
        assert_eq!(bank.trigger(&[]), done(0));
        for _ in 0..2 {
            assert_eq!(bank.finish(code, &mut []), done(0));
            assert_data(&bank, 0..6);
        }
        // A direct command after it is as ever.
        assert_eq!(bank.write(0x100, 0), done(0));
        started(&mut bank, &[command]);
        assert_eq!(bank.finish(code, &mut []), done(u32::from(code) << 20));
        assert_data(&bank, u32::from(command != WRITE)..6);
    }
}

/// Room and source bit 2 follow the level; bit 7 asks for an address word and stays clear.
#[test]
fn registers_after_a_failed_write() {
    let mut bank = with_data(PLACES);
    assert_eq!(bank.write(0xdc, 0), refuse(DROPPED_FULL));
    assert_eq!(value_at(&mut bank, 0xc8), 0);
    assert_eq!(value_at(&mut bank, 0x88), 0x01);
    started(&mut bank, &[WRITE | length(20)]);
    assert_eq!(bank.finish(6, &mut []), done(0x0060_0000));
    assert_eq!(value_at(&mut bank, 0xc8), 5);
    assert_eq!(value_at(&mut bank, 0x88), 0x21);
    started(&mut bank, &[WRITE | length(1)]);
    assert_eq!(bank.finish(6, &mut []), done(0x0060_0001));
    assert_eq!(value_at(&mut bank, 0xc8), 6);
    assert_eq!(value_at(&mut bank, 0x88), 0x25);
}

/// Calls around writes that fail and writes that don't, most of them accepted.
fn random_call_for_writes(random: &mut Random) -> Call {
    let bytes = random.below(20);
    match random.below(20) {
        0..=2 => Call::Write {
            offset: 0xdc,
            value: random.word(),
        },
        3..=5 => {
            let first = random.one_of(&[
                WRITE,
                HEADER | WRITE,
                OTHER_WRITE,
                CCC | WRITE,
                CCC | OTHER_WRITE,
                READ,
            ]);
            Call::Write {
                offset: 0xd4,
                value: first | length(bytes),
            }
        }
        6 => Call::Write {
            offset: 0xd4,
            value: random.one_of(&[DIRECT, BROADCAST, ENTDAA]),
        },
        7..=10 => Call::Start,
        11 => Call::Send,
        12..=16 => Call::Finish {
            code: random.one_of(&[0, 4, 6, 8]),
        },
        17 | 18 => Call::Read { offset: 0xd8 },
        _ => Call::Write {
            offset: 0x40,
            value: u32::from(random.below(10) == 0),
        },
    }
}

/// SDO has what the calls and answers alone leave of the words written.
#[test]
fn random_writes_leave_what_they_should() {
    let mut removed = 0;
    let mut removed_short = 0;
    for seed in 0..20 {
        let mut random = Random(seed);
        let mut bank = with_data(0);
        let mut count = Count {
            released: true,
            ..Count::default()
        };
        for _ in 0..5000 {
            let call = random_call_for_writes(&mut random);
            let answer = bank.call(&call, &mut []);
            count.note(&call, answer);
            count.check(&bank);
            check_well_formed(&bank);
        }
        removed += count.removed;
        removed_short += count.removed_short;
    }
    assert!(removed > 2000 && removed_short > 200);
}

/// The longest length needs exactly the greatest capacity.
#[test]
fn the_longest_write() {
    let numbers = SetupNumbers {
        capacities: [4, 4, 1024, 4, 4],
        ..SESSION_NUMBERS
    };
    for (bytes, left) in [(0xfff, 0), (0xffd, 0), (0xffc, 1), (0xff8, 2)] {
        let (mut bank, _) = set_up(&numbers);
        assert_eq!(bank.write(0x40, 0), done(0));
        for n in 0..1024 {
            assert_eq!(bank.write(0xdc, n), done(0));
        }
        started(&mut bank, &[WRITE | length(bytes)]);
        assert_eq!(bank.finish(8, &mut []), done(0x0080_0000));
        assert_eq!(value_at(&mut bank, 0xc8), 1024 - left);
        assert!(bank.sdo.words.iter().copied().eq(1024 - left..1024));
    }
}
