//! Tests of traces: the file's form, sections, records, replay, and the program.

mod program;

use super::*;
use crate::engine::{set_up, SetupNumbers, SESSION_NUMBERS};
use crate::lines::{parse_line, Mode, Request};
use crate::number::*;

type Record = [u8; RECORD_BYTES];

fn record(letter: u8, offset: u16, first: u32, second: u32) -> Record {
    let mut bytes = [0; RECORD_BYTES];
    bytes[0] = letter;
    bytes[2..4].copy_from_slice(&offset.to_le_bytes());
    bytes[4..8].copy_from_slice(&first.to_le_bytes());
    bytes[8..12].copy_from_slice(&second.to_le_bytes());
    bytes
}

fn record_of(call: &Call) -> Record {
    match *call {
        Call::Write { offset, value } => record(b'W', offset, value, 0),
        Call::Read { offset } => record(b'R', offset, 0, 0),
        Call::Start => record(b'S', 0, 0, 0),
        Call::Send => record(b'T', 0, 0, 0),
        Call::Receive { byte } => record(b'X', 0, byte.into(), 0),
        Call::Finish { code } => record(b'F', 0, code.into(), 0),
        Call::InterruptRequest { address, byte } => record(b'I', 0, address.into(), byte.into()),
        Call::AddressRequest { first, second } => record(b'D', 0, first, second),
        Call::AddressTake => record(b'A', 0, 0, 0),
        Call::Trigger => panic!("the trigger has no letter"),
    }
}

/// The call of a session's line.
fn call(line: &str) -> Call {
    match parse_line(line.as_bytes(), Mode::Session) {
        Some(Request::Call(call)) => call,
        other => panic!("{line}: {other:?}"),
    }
}

/// The calls of a session, lines parted by commas.
fn calls(session: &str) -> Vec<Call> {
    session.split(", ").map(call).collect()
}

fn records_of(session: &str) -> Vec<Record> {
    calls(session).iter().map(record_of).collect()
}

/// What comes before the records: mark, count of sections, starts and counts.
fn head(counts: &[u32]) -> Vec<u8> {
    let mut bytes = b"I3TR".to_vec();
    bytes.extend((counts.len() as u16).to_le_bytes());
    let mut start = (6 + 8 * counts.len()) as u32;
    for count in counts {
        bytes.extend(start.to_le_bytes());
        bytes.extend(count.to_le_bytes());
        start = start.wrapping_add(count.wrapping_mul(12));
    }
    bytes
}

fn trace(sections: &[Vec<Record>]) -> Vec<u8> {
    let counts: Vec<u32> = sections.iter().map(|s| s.len() as u32).collect();
    let mut bytes = head(&counts);
    for section in sections {
        bytes.extend(section.as_flattened());
    }
    bytes
}

/// Two sections, of two and three records.
fn small_trace() -> Vec<u8> {
    trace(&[
        records_of("W 40 0, W 180 1102"),
        records_of("W dc a5c30000, W d4 210, S"),
    ])
}

const NOTHING: Answer = Answer {
    value: 0,
    number: DONE,
};

fn refused(number: u8) -> Replay {
    Replay {
        number,
        done: 0,
        last: NOTHING,
    }
}

// The file's form.

#[test]
fn the_form_byte_by_byte() {
    let bytes = b"I3TR\x02\x00\
        \x16\x00\x00\x00\x02\x00\x00\x00\
        \x2e\x00\x00\x00\x03\x00\x00\x00\
        W\0\x40\x00\x00\x00\x00\x00\x00\x00\x00\x00\
        W\0\x80\x01\x02\x11\x00\x00\x00\x00\x00\x00\
        W\0\xdc\x00\x00\x00\xc3\xa5\x00\x00\x00\x00\
        W\0\xd4\x00\x10\x02\x00\x00\x00\x00\x00\x00\
        S\0\x00\x00\x00\x00\x00\x00\x00\x00\x00\x00";
    assert_eq!(small_trace(), bytes);
    assert_eq!(check(bytes), DONE);
}

/// Within the mark a cut is `WRONG_MARK`, behind it `WRONG_TABLE`; so is each byte too many.
#[test]
fn cut_at_each_byte_or_too_long() {
    let mut bytes = small_trace();
    for length in 0..bytes.len() {
        let expected = if length < 4 { WRONG_MARK } else { WRONG_TABLE };
        assert_eq!(check(&bytes[..length]), expected, "{length}");
    }
    for more in 1..=24 {
        bytes.push(0);
        assert_eq!(check(&bytes), WRONG_TABLE, "{more}");
    }
}

/// Every other value of each byte before the records is a wrong mark or wrong contents.
#[test]
fn each_header_byte_changed() {
    let bytes = small_trace();
    for place in 0..6 + 2 * 8 {
        for change in 1..=255 {
            let mut changed = bytes.clone();
            changed[place] ^= change;
            let expected = if place < 4 { WRONG_MARK } else { WRONG_TABLE };
            assert_eq!(check(&changed), expected, "{place} {change}");
        }
    }
}

/// Only a replay tells wrong records.
#[test]
fn the_check_looks_at_no_record() {
    let mut bytes = small_trace();
    bytes[22..].fill(0xff);
    assert_eq!(check(&bytes), DONE);
}

/// Where both are wrong the mark decides.
#[test]
fn mark_before_contents() {
    assert_eq!(check(b""), WRONG_MARK);
    assert_eq!(check(b"I3TS"), WRONG_MARK);
    assert_eq!(check(b"i3tr\x00\x00"), WRONG_MARK);
    assert_eq!(check(b"I3T"), WRONG_MARK);
    assert_eq!(check(b"I3TR"), WRONG_TABLE);
    assert_eq!(check(b"I3TR\x01"), WRONG_TABLE);
    let mut bytes = small_trace();
    bytes[0] = 0;
    bytes.resize(MOST_FILE_BYTES as usize + 1, 0);
    assert_eq!(check(&bytes), WRONG_MARK);
}

/// From 1 to 64, the low byte first.
#[test]
fn count_of_sections() {
    for sections in 0..=300_usize {
        let bytes = trace(&vec![records_of("R 0"); sections]);
        let expected = if (1..=64).contains(&sections) {
            DONE
        } else {
            WRONG_TABLE
        };
        assert_eq!(check(&bytes), expected, "{sections}");
    }
    // 0x0100 in little-endian order is 256 and 0x0001 is not.
    let mut bytes = trace(&[vec![]]);
    assert_eq!(check(&bytes), DONE);
    bytes[4..6].copy_from_slice(&[0, 1]);
    assert_eq!(check(&bytes), WRONG_TABLE);
}

/// Each section begins where the one before it ends.
#[test]
fn gaps_and_order() {
    // A gap of one record between the two sections, the file being as long.
    let mut bytes = small_trace();
    bytes.splice(46..46, [0; 12]);
    assert_eq!(check(&bytes), WRONG_TABLE);
    bytes[14..18].copy_from_slice(&58_u32.to_le_bytes());
    assert_eq!(check(&bytes), WRONG_TABLE);
    // A gap before the first.
    let mut bytes = trace(&[records_of("R 0")]);
    bytes.insert(14, 0);
    bytes[6] = 15;
    assert_eq!(check(&bytes), WRONG_TABLE);
    // The two the other way round.
    let mut bytes = small_trace();
    let (first, second) = bytes[6..22].split_at_mut(8);
    first.swap_with_slice(second);
    assert_eq!(check(&bytes), WRONG_TABLE);
    // Two that share their records.
    let mut bytes = trace(&[records_of("R 0"), records_of("R 0")]);
    bytes[14..18].copy_from_slice(&22_u32.to_le_bytes());
    assert_eq!(check(&bytes), WRONG_TABLE);
}

#[test]
fn sections_without_records() {
    let sections = [vec![], vec![], records_of("R 0"), vec![]];
    let bytes = trace(&sections);
    assert_eq!(check(&bytes), DONE);
    for (number, records) in sections.iter().enumerate() {
        assert_eq!(section(&bytes, number), (records.as_flattened(), DONE));
    }
    assert_eq!(check(&trace(&vec![vec![]; 64])), 0);
}

/// Counts whose bytes are the right ones modulo 2 to the 32nd.
#[test]
fn sums_above_32_bits() {
    let third = 1 << 30;
    for counts in [
        [third + 1, 0],
        [1, third],
        [third, 1],
        [2 * third + 1, 2 * third],
        [3 * third + 1, third],
    ] {
        let mut bytes = head(&counts);
        bytes.extend(record(b'R', 0, 0, 0));
        assert_eq!(check(&bytes), WRONG_TABLE, "{counts:?}");
    }
    for count in [third, u32::MAX / 12, u32::MAX / 12 + 1, u32::MAX] {
        assert_eq!(check(&head(&[count])), WRONG_TABLE);
        assert_eq!(check(&head(&[count; 64])), 25);
    }
    assert_eq!(check(&head(&[0; 64])), 0);
}

/// The most records of a file with so many sections.
fn most_records(sections: usize) -> usize {
    (MOST_FILE_BYTES as usize - 6 - 8 * sections) / 12
}

/// A trace has 6 bytes and a multiple of 4, so none has 16 MiB itself: the longest have 2
/// bytes less, the shortest too long ones 2 more.
#[test]
fn the_longest_files() {
    let mut bytes = head(&[most_records(1) as u32]);
    bytes.resize(14 + 12 * most_records(1), 0);
    assert_eq!(bytes.len(), (16 << 20) - 2);
    assert_eq!(check(&bytes), DONE);
    for _ in 0..4 {
        bytes.push(0);
        assert_eq!(check(&bytes), WRONG_TABLE, "{}", bytes.len());
    }

    let most = most_records(3) as u32;
    let mut bytes = head(&[most - 2, 1, 2]);
    bytes.resize((16 << 20) + 2, 0);
    assert_eq!(check(&bytes), WRONG_TABLE);
    bytes[..30].copy_from_slice(&head(&[most - 2, 1, 1]));
    bytes.truncate((16 << 20) - 10);
    assert_eq!(check(&bytes), DONE);
}

// Sections.

/// No copy: the same memory.
#[test]
fn a_section_is_the_callers_own_bytes() {
    let bytes = small_trace();
    for (number, place) in [(0, 22..46), (1, 46..82)] {
        let (records, answer) = section(&bytes, number);
        assert_eq!(answer, DONE);
        assert!(std::ptr::eq(records, &bytes[place]));
    }
}

/// They have no bytes; `WRONG_MARK` and `WRONG_TABLE` go before `NO_SUCH_SECTION`.
#[test]
fn sections_that_there_are_not() {
    let mut bytes = small_trace();
    let empty: &[u8] = &[];
    for number in [2, 3, 63, 64, 65, 256, 1 << 16, 1 << 32, usize::MAX] {
        assert_eq!(section(&bytes, number), (empty, NO_SUCH_SECTION));
    }
    bytes.pop();
    for number in [0, 1, 2, usize::MAX] {
        assert_eq!(section(&bytes, number), (empty, WRONG_TABLE));
    }
    bytes[3] = b'r';
    for number in [0, 1, 2, usize::MAX] {
        assert_eq!(section(&bytes, number), (empty, WRONG_MARK));
    }
    assert_eq!(section(b"", 0), (empty, WRONG_MARK));
}

// Records.

/// A line of each letter, its fields at their greatest.
const GREATEST: [&str; 9] = [
    "W ffff ffffffff",
    "R ffff",
    "S",
    "T",
    "X ff",
    "F ff",
    "I ff ff",
    "D ffffffff ffffffff",
    "A",
];

/// A line of each letter, each byte of its fields another.
const MIXED: [&str; 9] = [
    "W 1234 56789abc",
    "R 1234",
    "S",
    "T",
    "X 12",
    "F 12",
    "I 12 34",
    "D 12345678 9abcdef0",
    "A",
];

#[test]
fn a_record_is_the_call_of_its_line() {
    for line in GREATEST.iter().chain(&MIXED) {
        let call = call(line);
        assert_eq!(parse_record(&record_of(&call)), Some(call), "{line}");
    }
    let nothing = "W 0 0, R 0, S, T, X 0, F 0, I 0 0, D 0 0, A";
    for call in calls(nothing) {
        assert_eq!(parse_record(&record_of(&call)), Some(call));
    }
}

/// Nine of 256 bytes are one.
#[test]
fn letters() {
    for letter in 0..=255 {
        let expected = b"WRSTXFIDA".contains(&letter);
        let call = parse_record(&record(letter, 0, 0, 0));
        assert_eq!(call.is_some(), expected, "{letter}");
    }
}

/// The bytes of a record, letter and zero byte left out, that may be other than 0.
fn free_bytes(letter: u8) -> &'static [usize] {
    match letter {
        b'W' => &[2, 3, 4, 5, 6, 7],
        b'R' => &[2, 3],
        b'X' | b'F' => &[4],
        b'I' => &[4, 8],
        b'D' => &[4, 5, 6, 7, 8, 9, 10, 11],
        _ => &[],
    }
}

/// Each bit of each byte changed: fields that the letter uses may have any value, others
/// none but 0.
#[test]
fn each_other_byte_of_a_record() {
    for line in GREATEST.iter().chain(&MIXED) {
        let right = record_of(&call(line));
        for place in 1..RECORD_BYTES {
            for bit in 0..8 {
                let mut changed = right;
                changed[place] ^= 1 << bit;
                let expected = free_bytes(right[0]).contains(&place);
                let is_right = parse_record(&changed).is_some();
                assert_eq!(is_right, expected, "{line}: {place} {bit}");
            }
        }
    }
}

/// 255 itself makes a right record, though the bank answers
/// `OUT_OF_RANGE` to such a code or address.
#[test]
fn bytes_above_255() {
    for letter in [b'X', b'F', b'I'] {
        assert!(parse_record(&record(letter, 0, 255, 0)).is_some());
        for value in [256, 257, 0x1_0000, 0x8000_0000, u32::MAX] {
            assert_eq!(parse_record(&record(letter, 0, value, 0)), None);
        }
    }
    assert!(parse_record(&record(b'I', 0, 0, 255)).is_some());
    assert_eq!(parse_record(&record(b'I', 0, 0, 256)), None);
    let bytes = trace(&[records_of("W 40 0, F ff, I ff ff")]);
    for most in [2, 3] {
        let replay = replay(&bytes, 0, most, &mut session_bank());
        assert_eq!((replay.number, replay.last.number), (DONE, OUT_OF_RANGE));
    }
}

// Replay.

/// Answers to the calls one by one, on a session's bank, and the bank then.
fn one_by_one(calls: &[Call]) -> (Vec<Answer>, Bank) {
    let mut bank = session_bank();
    let answers = calls.iter().map(|call| bank.call(call, &mut [])).collect();
    (answers, bank)
}

const WORKED: &str = "W 40 0, W 180 1102, W dc a5c30000, W d4 210, S, T, T, F 0, R d8, R d8";

/// From none to more than there are; the rest is as if the calls had come one by one.
#[test]
fn a_stated_number_of_records() {
    let calls = calls(WORKED);
    let bytes = trace(&[records_of(WORKED)]);
    for most in (0..=calls.len() + 2).chain([1 << 32, usize::MAX]) {
        let done = most.min(calls.len());
        let (answers, expected) = one_by_one(&calls[..done]);
        let mut bank = session_bank();
        let last = answers.last().copied().unwrap_or(NOTHING);
        let number = DONE;
        assert_eq!(
            replay(&bytes, 0, most, &mut bank),
            Replay { number, done, last }
        );
        assert_eq!(bank, expected);
    }
}

/// The records of the others are not done.
#[test]
fn each_section_by_itself() {
    let bytes = small_trace();
    let mut bank = session_bank();
    let last = Answer {
        value: 0,
        number: HELD_IN_RESET,
    };
    let expected = Replay {
        number: DONE,
        done: 3,
        last,
    };
    assert_eq!(replay(&bytes, 1, 9, &mut bank), expected);
    assert_eq!(bank, session_bank());

    assert_eq!(replay(&bytes, 0, 9, &mut bank).done, 2);
    let last = Answer {
        value: 0x210,
        number: DONE,
    };
    assert_eq!(replay(&bytes, 1, 9, &mut bank), Replay { last, ..expected });
}

#[test]
fn refused_before_the_first_record() {
    let mut bytes = small_trace();
    let mut bank = session_bank();
    for most in [0, 1, usize::MAX] {
        assert_eq!(replay(&bytes, 2, most, &mut bank), refused(NO_SUCH_SECTION));
        assert_eq!(
            replay(&bytes[..81], 0, most, &mut bank),
            refused(WRONG_TABLE)
        );
        assert_eq!(
            replay(&bytes[..81], 2, most, &mut bank),
            refused(WRONG_TABLE)
        );
        assert_eq!(replay(&bytes[..3], 2, most, &mut bank), refused(WRONG_MARK));
    }
    bytes.push(0);
    assert_eq!(replay(&bytes, 0, 1, &mut bank), refused(WRONG_TABLE));
    bytes[0] = b'J';
    assert_eq!(replay(&bytes, 0, 1, &mut bank), refused(WRONG_MARK));
    assert_eq!(bank, session_bank());
}

/// The replay does the records before it and stops there.
#[test]
fn a_wrong_record_among_right_ones() {
    let calls = calls(WORKED);
    for place in 0..calls.len() {
        let mut records = records_of(WORKED);
        records[place][1] = 1;
        // What follows is not looked at, be it wrong too.
        records.push([0xff; RECORD_BYTES]);
        let bytes = trace(&[vec![[0; RECORD_BYTES]], records, vec![]]);
        let (answers, expected) = one_by_one(&calls[..place]);
        let last = answers.last().copied().unwrap_or(NOTHING);
        let done = place;
        for most in [place + 1, place + 2, usize::MAX] {
            let mut bank = session_bank();
            let number = WRONG_RECORD;
            let replay = replay(&bytes, 1, most, &mut bank);
            assert_eq!(replay, Replay { number, done, last });
            assert_eq!(bank, expected);
        }
        // Nor is the wrong one, if the stated number ends before it.
        let mut bank = session_bank();
        let number = DONE;
        let replay = replay(&bytes, 1, place, &mut bank);
        assert_eq!(replay, Replay { number, done, last });
        assert_eq!(bank, expected);
    }
}

/// The record counts, and the next one is done.
#[test]
fn refusals_and_wrong_parity_do_not_stop() {
    let session = "S, R 1, W 0 0, W 40 0, T, F 10, W d4 400000, S, W d4 7, S, D 1 2, \
                   W dc 11000000, A, A, W dc 13000000, A, F 0, R d8";
    let numbers = [
        HELD_IN_RESET,
        NO_REGISTER,
        DROPPED_READ_ONLY,
        DONE,
        NO_TRANSFER,
        OUT_OF_RANGE,
        DONE,
        NO_COMMAND,
        DONE,
        DONE,
        DONE,
        DONE,
        WRONG_PARITY,
        SDO_EMPTY,
        DONE,
        DONE,
        DONE,
        DONE,
    ];
    let bytes = trace(&[records_of(session)]);
    for (place, number) in numbers.into_iter().enumerate() {
        let replay = replay(&bytes, 0, place + 1, &mut session_bank());
        let seen = (replay.number, replay.done, replay.last.number);
        assert_eq!(seen, (DONE, place + 1, number));
    }
    let to_wrong_parity = replay(&bytes, 0, 13, &mut session_bank());
    assert_eq!(to_wrong_parity.last.value, 8);
}

/// A refused set-up leaves a bank on which each record is `NOT_WELL_FORMED`.
#[test]
fn on_a_bank_that_is_not_well_formed() {
    let numbers = SetupNumbers {
        id: 256,
        ..SESSION_NUMBERS
    };
    let (mut bank, _) = set_up(&numbers);
    let before = bank.clone();
    let last = Answer {
        value: 0,
        number: NOT_WELL_FORMED,
    };
    let expected = Replay {
        number: DONE,
        done: 2,
        last,
    };
    assert_eq!(replay(&small_trace(), 0, 9, &mut bank), expected);
    assert_eq!(bank, before);
}

/// A burst that reads needs an output, and a replay has none to lend (02 §3).
#[test]
fn in_an_open_burst() {
    let open_burst = |command: u32| {
        let mut bank = session_bank();
        for line in ["W 40 0", "W 180 1102", "W 100 3", "W 300 a5000000"] {
            assert_eq!(bank.call(&call(line), &mut []).number, DONE);
        }
        assert_eq!(bank.write(0x2c0, command).number, DONE);
        assert_eq!(bank.trigger(&[0]).number, DONE);
        bank
    };
    let numbers_of = |session: &str, mut bank: Bank| -> Vec<u8> {
        let records = records_of(session).into_iter();
        let traces = records.map(|record| trace(&[vec![record]]));
        let replays = traces.map(|bytes| replay(&bytes, 0, 1, &mut bank));
        replays.map(|replay| replay.last.number).collect()
    };
    let session = "F 10, S, T, X 5a, F 0, I 8 0, D 0 0, A, W 100 0, R 100";
    let a_read = [
        OUT_OF_RANGE,
        NO_ROOM,
        NO_ROOM,
        NO_ROOM,
        NO_ROOM,
        NO_ROOM,
        NO_ROOM,
        NO_ROOM,
        TRANSFER_OPEN,
        DONE,
    ];
    assert_eq!(numbers_of(session, open_burst(0x111)), a_read);
    // A burst without reads needs no output.
    let a_write = [
        OUT_OF_RANGE,
        TRANSFER_OPEN,
        DONE,
        NOT_THIS_KIND,
        DONE,
        NOT_HEARD,
        NO_TRANSFER,
        NO_TRANSFER,
        DONE,
        DONE,
    ];
    assert_eq!(numbers_of(session, open_burst(0x110)), a_write);
}
