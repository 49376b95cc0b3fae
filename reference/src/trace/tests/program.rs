//! Tests of the program: what it prints for whole traces, and for others where it
//! meets what is wrong.

use super::*;
use crate::lines::run_session;

fn run(input: impl Read) -> String {
    let mut output = Vec::new();
    run_replay(input, &mut output).unwrap();
    String::from_utf8(output).unwrap()
}

/// The session's output for these lines, parted by commas.
fn session_output(session: &str) -> String {
    let mut output = Vec::new();
    let lines = session.replace(", ", "\n");
    run_session(lines.as_bytes(), &mut output, Mode::Session).unwrap();
    String::from_utf8(output).unwrap()
}

fn fault(number: u8) -> String {
    format!("00000000 {number:02}\n")
}

/// The first lines of an output.
fn first_lines(output: &str, count: usize) -> String {
    output.split_inclusive('\n').take(count).collect()
}

const SMALL: &str = "W 40 0, W 180 1102, W dc a5c30000, W d4 210, S";

#[test]
fn the_worked_session() {
    let expected = "00000000 00\n\
                    00000000 00\n\
                    00000000 00\n\
                    00000000 00\n\
                    00000210 00\n\
                    000000a5 00\n\
                    000000c3 00\n\
                    00000200 00\n\
                    00000200 00\n\
                    00000200 03\n";
    assert_eq!(run(&trace(&[records_of(WORKED)])[..]), expected);
}

/// All sections have one bank, so that it makes no difference where they are cut.
#[test]
fn sections_in_order() {
    let records = records_of(WORKED);
    for cut in 0..=records.len() {
        let (first, second) = records.split_at(cut);
        let sections = [first.to_vec(), vec![], second.to_vec()];
        assert_eq!(run(&trace(&sections)[..]), session_output(WORKED));
    }
    assert_eq!(run(&trace(&vec![vec![]; 64])[..]), "");
}

/// The records that lie whole in so many bytes of the small trace.
fn whole_records(length: usize) -> usize {
    length.saturating_sub(22) / 12
}

/// The records that are whole are done first.
#[test]
fn cut_at_each_byte() {
    let bytes = small_trace();
    let output = session_output(SMALL);
    for length in 0..bytes.len() {
        let number = if length < 4 { WRONG_MARK } else { WRONG_TABLE };
        let expected = first_lines(&output, whole_records(length)) + &fault(number);
        assert_eq!(run(&bytes[..length]), expected, "{length}");
    }
    assert_eq!(run(&bytes[..]), output);
}

/// Here the bytes that are missing are zeros, and no record is.
#[test]
fn a_table_cut_short() {
    let bytes = trace(&[vec![], vec![]]);
    for length in 4..bytes.len() {
        assert_eq!(run(&bytes[..length]), fault(WRONG_TABLE), "{length}");
        assert_eq!(check(&bytes[..length]), WRONG_TABLE, "{length}");
    }
    assert_eq!(run(&bytes[..]), "");
}

/// A record that is not whole is a wrong length, whatever bytes it has.
#[test]
fn a_wrong_record_cut_short() {
    let mut bytes = small_trace();
    bytes[70..].fill(0xff);
    let expected = first_lines(&session_output(SMALL), 4);
    for length in 70..82 {
        assert_eq!(
            run(&bytes[..length]),
            expected.clone() + &fault(WRONG_TABLE)
        );
    }
    assert_eq!(run(&bytes[..]), expected + &fault(WRONG_RECORD));
}

#[test]
fn bytes_after_the_last_record() {
    let mut bytes = small_trace();
    let expected = session_output(SMALL) + &fault(WRONG_TABLE);
    for _ in 0..30 {
        bytes.push(b'R');
        assert_eq!(run(&bytes[..]), expected);
    }
    assert_eq!(run(b"I3TR\x01\0\x0e\0\0\0\0\0\0\0".as_slice()), "");
    assert_eq!(
        run(b"I3TR\x01\0\x0e\0\0\0\0\0\0\0\0".as_slice()),
        fault(WRONG_TABLE)
    );
}

/// Wrong starts and counts of sections are met before the first record; wrong counts of
/// records too, where another start follows.
#[test]
fn each_header_byte_changed() {
    let bytes = small_trace();
    let last_count = 18;
    for place in 0..last_count {
        for change in 1..=255 {
            let mut changed = bytes.clone();
            changed[place] ^= change;
            let expected = fault(if place < 4 { WRONG_MARK } else { WRONG_TABLE });
            assert_eq!(run(&changed[..]), expected, "{place} {change}");
        }
    }
}

/// The last section's count alone decides when the file is too short or too long.
#[test]
fn another_last_count() {
    let bytes = small_trace();
    let output = session_output(SMALL);
    let asking_for_16_mib = (most_records(2) - 2) as u32;
    let late = [0, 1, 2, 4, 255, 256, 65_536, asking_for_16_mib];
    let at_once = [
        asking_for_16_mib + 1,
        1 << 24,
        1 << 30,
        (1 << 30) + 3,
        u32::MAX,
    ];
    for count in late.into_iter().chain(at_once) {
        let mut changed = bytes.clone();
        changed[18..22].copy_from_slice(&u32::to_le_bytes(count));
        let done = match at_once.contains(&count) {
            true => 0,
            false => 2 + count.min(3) as usize,
        };
        let expected = first_lines(&output, done) + &fault(WRONG_TABLE);
        assert_eq!(run(&changed[..]), expected, "{count}");
    }
}

#[test]
fn sums_above_32_bits_at_once() {
    let third = 1 << 30;
    for counts in [[third + 1, 0], [1, third], [third, 1], [u32::MAX; 2]] {
        let mut bytes = head(&counts);
        bytes.extend(record(b'R', 0, 0, 0));
        assert_eq!(run(&bytes[..]), fault(WRONG_TABLE), "{counts:?}");
    }
    assert_eq!(run(&head(&[u32::MAX; 64])[..]), fault(WRONG_TABLE));
}

/// What follows is not looked at.
#[test]
fn a_wrong_record() {
    for place in 0..5 {
        let mut bytes = small_trace();
        bytes[22 + 12 * place + 1] = 1;
        let expected = first_lines(&session_output(SMALL), place) + &fault(WRONG_RECORD);
        assert_eq!(run(&bytes[..]), expected);
        bytes.extend([0; 5]);
        assert_eq!(run(&bytes[..]), expected);
        bytes.truncate(22 + 12 * place + 12);
        assert_eq!(run(&bytes[..]), expected);
    }
}

/// A session of many calls, most of them done: writes, reads and assignments in turn.
fn long_session(rounds: u32) -> String {
    let mut session = "W 40 0, W 180 1102, W 140 3".to_string();
    for round in 0..rounds {
        let byte = round % 256;
        session += &match round % 4 {
            0 => format!(", W dc {round:x}, W d4 210, S, T, T, F 0, R d8, R {byte:x}"),
            1 => format!(", W d4 511, S, X {byte:x}, X 1, X 2, X 3, X 4, F 0, R e0, R e0, R d8"),
            2 => format!(", W d4 400000, W d4 7, S, D {round:x} 1, W dc {byte:x}000000, A, A"),
            _ => format!(
                ", F 4, W 40 {:x}, W 40 0, I 8 {byte:x}, R e4, R 88",
                round / 4 % 2
            ),
        };
    }
    session
}

/// More records than a batch has, and just as many.
#[test]
fn as_the_session_over_batches() {
    let session = long_session(2000);
    let records = records_of(&session);
    let output = session_output(&session);
    assert!(records.len() > 7 * BATCH_RECORDS);
    for number in [DONE, EMPTY, SDO_EMPTY, ENDING_NOT_ALLOWED, WRONG_PARITY] {
        assert!(output.contains(&format!(" {number:02}\n")), "{number}");
    }
    let sections: Vec<_> = records.chunks(999).map(<[Record]>::to_vec).collect();
    let bytes = trace(&sections);
    assert_eq!(run(&bytes[..]), output);
    assert_eq!(run(&bytes[..bytes.len() - 1]), {
        first_lines(&output, records.len() - 1) + &fault(WRONG_TABLE)
    });
    for batches in 1..=2 {
        for count in [-1, 0, 1].map(|more| batches * BATCH_RECORDS as i64 + more) {
            let count = count as usize;
            let mut bytes = trace(&[records[..count].to_vec()]);
            let expected = first_lines(&output, count);
            assert_eq!(run(&bytes[..]), expected);
            bytes.push(0);
            assert_eq!(run(&bytes[..]), expected.clone() + &fault(WRONG_TABLE));
            bytes.truncate(bytes.len() - 2);
            let before = first_lines(&output, count - 1);
            assert_eq!(run(&bytes[..]), before.clone() + &fault(WRONG_TABLE));
            bytes.push(1);
            assert_eq!(run(&bytes[..]), before + &fault(WRONG_RECORD));
        }
    }
}

/// Gives its bytes in pieces, with an interruption before each.
struct Pieces<'a> {
    bytes: &'a [u8],
    length: usize,
    interrupted: bool,
}

impl Read for Pieces<'_> {
    fn read(&mut self, buffer: &mut [u8]) -> io::Result<usize> {
        self.interrupted = !self.interrupted;
        if self.interrupted {
            return Err(ErrorKind::Interrupted.into());
        }
        let length = self.length.min(buffer.len());
        self.bytes.read(&mut buffer[..length])
    }
}

#[test]
fn input_in_pieces() {
    let session = long_session(700);
    let bytes = trace(&[records_of(&session)]);
    let output = session_output(&session);
    for length in [1, 5, 7, 11, 12, 13, 4095, 4096, 4097] {
        let pieces = |bytes| Pieces {
            bytes,
            length,
            interrupted: false,
        };
        assert_eq!(run(pieces(&bytes[..])), output);
        let cut = &bytes[..14 + 12 * 3 + 5];
        assert_eq!(
            run(pieces(cut)),
            first_lines(&output, 3) + &fault(WRONG_TABLE)
        );
    }
}

/// An input that can't be read further.
struct Unreadable;

impl Read for Unreadable {
    fn read(&mut self, _: &mut [u8]) -> io::Result<usize> {
        Err(ErrorKind::Other.into())
    }
}

#[test]
fn a_failed_read_ends_the_input() {
    let bytes = small_trace();
    let output = session_output(SMALL);
    assert_eq!(run(Unreadable), fault(WRONG_MARK));
    assert_eq!(run(bytes[..5].chain(Unreadable)), fault(WRONG_TABLE));
    assert_eq!(run(bytes[..20].chain(Unreadable)), fault(WRONG_TABLE));
    let expected = first_lines(&output, 2) + &fault(WRONG_TABLE);
    assert_eq!(run(bytes[..50].chain(Unreadable)), expected);
    assert_eq!(run(bytes.chain(Unreadable)), output);
}

/// An input without end is read one byte past what the contents ask for, no further.
#[test]
fn an_input_without_end() {
    let bytes = small_trace();
    assert_eq!(run(io::repeat(0)), fault(WRONG_MARK));
    assert_eq!(run(bytes[..4].chain(io::repeat(0))), fault(WRONG_TABLE));
    assert_eq!(run(bytes[..4].chain(io::repeat(255))), fault(WRONG_TABLE));
    let expected = session_output(SMALL) + &fault(WRONG_TABLE);
    assert_eq!(run(bytes.chain(io::repeat(0))), expected);
}

/// Takes no byte past a limit.
struct Full {
    left: usize,
}

impl Write for Full {
    fn write(&mut self, bytes: &[u8]) -> io::Result<usize> {
        let taken = bytes.len().min(self.left);
        self.left -= taken;
        Ok(taken)
    }

    fn flush(&mut self) -> io::Result<()> {
        Ok(())
    }
}

/// The failed write ends the replay, of the fault's line too.
#[test]
fn an_output_that_is_full() {
    let bytes = small_trace();
    for left in 0..60 {
        assert!(run_replay(&bytes[..], &mut Full { left }).is_err());
    }
    assert!(run_replay(&bytes[..], &mut Full { left: 60 }).is_ok());
    assert!(run_replay(&bytes[..81], &mut Full { left: 59 }).is_err());
    assert!(run_replay(&bytes[..3], &mut Full { left: 11 }).is_err());
}

/// A table that asks for too much is refused before the first record, whatever the file's
/// length is.
#[test]
fn the_longest_files() {
    let right = record(b'S', 0, 0, 0);
    let line = "00000000 05\n";
    let most = most_records(3);
    let bytes = |counts: [usize; 3], length: usize| {
        let mut bytes = head(&counts.map(|count| count as u32));
        bytes.extend(right.repeat(most + 1));
        bytes.truncate(length);
        bytes
    };
    let output = run(&bytes([1, most - 2, 1], (16 << 20) - 10)[..]);
    assert!(output == line.repeat(most));
    // Exactly 16 MiB, with contents that ask for less, and for more.
    let output = run(&bytes([1, most - 2, 1], 16 << 20)[..]);
    assert!(output == line.repeat(most) + &fault(WRONG_TABLE));
    let output = run(&bytes([1, most - 2, 2], 16 << 20)[..]);
    assert_eq!(output, fault(WRONG_TABLE));
    // Above 16 MiB, just as the contents say.
    let output = run(&bytes([1, most - 2, 2], (16 << 20) + 2)[..]);
    assert_eq!(output, fault(WRONG_TABLE));

    let mut bytes = head(&[most_records(1) as u32]);
    bytes.extend(right.repeat(most_records(1)));
    assert_eq!(bytes.len(), (16 << 20) - 2);
    assert!(run(&bytes[..]) == line.repeat(most_records(1)));
}
