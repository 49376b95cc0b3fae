//! Bench traces: the file's form, its sections, its records, and their replay (02 §1).
//!
//! The program reads a trace as it comes, so that it can do the records before a wrong
//! length; the other public functions have the whole file before them and look at its
//! length first.

use crate::engine::{Answer, Bank, Call};
use crate::lines::{print_answer, put_answer, session_bank, Letter, LINE_BYTES};
use crate::number::{DONE, NO_SUCH_SECTION, WRONG_MARK, WRONG_RECORD, WRONG_TABLE};
use std::io::{self, ErrorKind, Read, Write};

const MARK: &[u8; 4] = b"I3TR";
/// The mark and the count of sections.
const HEAD_BYTES: usize = MARK.len() + 2;
const MOST_SECTIONS: usize = 64;
/// A section's start and its count of records.
const ENTRY_BYTES: usize = 8;
const RECORD_BYTES: usize = 12;
const MOST_FILE_BYTES: u64 = 16 << 20;

/// What the program reads, and prints, at once: whole records, whole lines. These two
/// buffers have 24 KiB each; those of the standard streams, 8 KiB and 1 KiB, come on top,
/// and 64 KiB is the bound for all.
const BATCH_RECORDS: usize = 2048;

// The file's form. Every number is little-endian.

/// One row of the contents.
struct Entry {
    start: u32,
    count: u32,
}

fn parse_entry(&[s0, s1, s2, s3, c0, c1, c2, c3]: &[u8; ENTRY_BYTES]) -> Entry {
    Entry {
        start: u32::from_le_bytes([s0, s1, s2, s3]),
        count: u32::from_le_bytes([c0, c1, c2, c3]),
    }
}

fn entries(table: &[u8]) -> impl Iterator<Item = Entry> + '_ {
    table.as_chunks().0.iter().map(parse_entry)
}

/// How many bytes the contents have after the head, which may be cut short and may
/// have more behind it: within the mark that is `WRONG_MARK`, behind it `WRONG_TABLE`.
fn table_bytes(head: &[u8]) -> Result<usize, u8> {
    let behind_mark = head.strip_prefix(MARK).ok_or(WRONG_MARK)?;
    let [low, high, ..] = *behind_mark else {
        return Err(WRONG_TABLE);
    };
    match usize::from(u16::from_le_bytes([low, high])) {
        sections @ 1..=MOST_SECTIONS => Ok(sections * ENTRY_BYTES),
        _ => Err(WRONG_TABLE),
    }
}

/// The bytes of a file with these contents: each section begins where the one before it
/// ends. A start has 32 bits and 64 counts may ask for more, so that the sum has 64.
fn file_bytes(table: &[u8]) -> Result<u64, u8> {
    let mut end = (HEAD_BYTES + table.len()) as u64;
    for entry in entries(table) {
        if u64::from(entry.start) != end {
            return Err(WRONG_TABLE);
        }
        end += u64::from(entry.count) * RECORD_BYTES as u64;
    }
    if end > MOST_FILE_BYTES {
        return Err(WRONG_TABLE);
    }
    Ok(end)
}

/// The contents of a whole file, if it is a trace. The records are not looked at.
fn contents(trace: &[u8]) -> Result<&[u8], u8> {
    let length = table_bytes(trace)?;
    let table = trace[HEAD_BYTES..].get(..length).ok_or(WRONG_TABLE)?;
    if trace.len() as u64 != file_bytes(table)? {
        return Err(WRONG_TABLE);
    }
    Ok(table)
}

/// The number of a whole file: `DONE` if it is a trace. As with the other calls for a whole
/// file, only tests have one, those of `bench/` too: the program meets its length last.
pub fn check(trace: &[u8]) -> u8 {
    contents(trace).err().unwrap_or(DONE)
}

fn find_section(trace: &[u8], section: usize) -> Result<&[u8], u8> {
    let mut entries = entries(contents(trace)?);
    let entry = entries.nth(section).ok_or(NO_SUCH_SECTION)?;
    // The contents are right, so that the section lies in the file.
    let behind_start = &trace[entry.start as usize..];
    Ok(&behind_start[..entry.count as usize * RECORD_BYTES])
}

/// A section's records, which are a part of the file lent, and a number. Refused, there
/// are none.
pub fn section(trace: &[u8], section: usize) -> (&[u8], u8) {
    match find_section(trace, section) {
        Ok(records) => (records, DONE),
        Err(number) => (&trace[..0], number),
    }
}

// Records.

/// None above 255, as the record is then wrong.
fn parse_byte(value: u32) -> Option<u8> {
    u8::try_from(value).ok()
}

/// Letter, zero, offset and two values; what a letter does not use has to be zero. None if
/// the record is wrong.
fn parse_record(record: &[u8; RECORD_BYTES]) -> Option<Call> {
    let &[[letter, 0, low, high], first, second] = record.as_chunks().0 else {
        return None;
    };
    let offset = u16::from_le_bytes([low, high]);
    let first = u32::from_le_bytes(first);
    let second = u32::from_le_bytes(second);
    let call = match (Letter::of_byte(letter)?, offset, first, second) {
        (Letter::W, offset, value, 0) => Call::Write { offset, value },
        (Letter::R, offset, 0, 0) => Call::Read { offset },
        (Letter::S, 0, 0, 0) => Call::Start,
        (Letter::T, 0, 0, 0) => Call::Send,
        (Letter::X, 0, byte, 0) => Call::Receive {
            byte: parse_byte(byte)?,
        },
        (Letter::F, 0, code, 0) => Call::Finish {
            code: parse_byte(code)?,
        },
        (Letter::I, 0, address, byte) => Call::InterruptRequest {
            address: parse_byte(address)?,
            byte: parse_byte(byte)?,
        },
        (Letter::D, 0, first, second) => Call::AddressRequest { first, second },
        (Letter::A, 0, 0, 0) => Call::AddressTake,
        _ => return None,
    };
    Some(call)
}

/// The answer to one record; none if it is wrong, and then nothing is done. The output is
/// empty (02 §3).
fn replay_record(record: &[u8; RECORD_BYTES], bank: &mut Bank) -> Option<Answer> {
    parse_record(record).map(|call| bank.call(&call, &mut []))
}

// Replay of one section.

/// What a replay gives: with no record done the last answer is value 0, number 0.
#[derive(Clone, Copy, Debug, PartialEq, Eq)]
pub struct Replay {
    pub number: u8,
    pub done: usize,
    pub last: Answer,
}

/// Replays at most `most` records of a section. A record that the bank refuses is done too
/// and leaves the bank as it was; only a wrong record stops the replay.
pub fn replay(trace: &[u8], section: usize, most: usize, bank: &mut Bank) -> Replay {
    let mut replay = Replay {
        number: DONE,
        done: 0,
        last: Answer {
            value: 0,
            number: DONE,
        },
    };
    let records = match find_section(trace, section) {
        Ok(records) => records.as_chunks().0,
        Err(number) => return Replay { number, ..replay },
    };
    for record in records.iter().take(most) {
        let Some(answer) = replay_record(record, bank) else {
            replay.number = WRONG_RECORD;
            break;
        };
        replay.last = answer;
        replay.done += 1;
    }
    replay
}

// The program.

/// Fills the buffer as far as the input goes and gives how far that is. A read that
/// fails ends the input.
fn fill(input: &mut impl Read, buffer: &mut [u8]) -> usize {
    let mut filled = 0;
    while filled < buffer.len() {
        match input.read(&mut buffer[filled..]) {
            Ok(0) => break,
            Ok(count) => filled += count,
            Err(error) if error.kind() == ErrorKind::Interrupted => {}
            Err(_) => break,
        }
    }
    filled
}

/// Reads all that comes before the first record and gives how many records follow.
fn read_contents(input: &mut impl Read) -> Result<usize, u8> {
    let mut head = [0; HEAD_BYTES];
    let filled = fill(input, &mut head);
    let length = table_bytes(&head[..filled])?;
    let mut table = [0; MOST_SECTIONS * ENTRY_BYTES];
    let table = &mut table[..length];
    if fill(input, table) < length {
        return Err(WRONG_TABLE);
    }
    // The sections have no gaps, so that their records are one row.
    let records = file_bytes(table)? as usize - HEAD_BYTES - length;
    Ok(records / RECORD_BYTES)
}

/// Replays records up to the first wrong one, each to its line; gives how many it did.
fn replay_batch(
    records: &[[u8; RECORD_BYTES]],
    lines: &mut [[u8; LINE_BYTES]],
    bank: &mut Bank,
) -> usize {
    let mut done = 0;
    for (record, line) in records.iter().zip(lines) {
        let Some(answer) = replay_record(record, bank) else {
            break;
        };
        put_answer(answer, line);
        done += 1;
    }
    done
}

/// Replays so many records as they come, then looks whether the input ends; gives the
/// number of the whole. A wrong length shows only there.
fn replay_records(
    mut count: usize,
    input: &mut impl Read,
    output: &mut impl Write,
) -> io::Result<u8> {
    let mut bank = session_bank();
    let mut records = vec![[0; RECORD_BYTES]; BATCH_RECORDS];
    let mut lines = vec![[0; LINE_BYTES]; BATCH_RECORDS];
    while count > 0 {
        let wanted = count.min(BATCH_RECORDS);
        // Of a record cut short nothing is looked at.
        let whole = fill(input, records[..wanted].as_flattened_mut()) / RECORD_BYTES;
        let done = replay_batch(&records[..whole], &mut lines, &mut bank);
        output.write_all(lines[..done].as_flattened())?;
        if done < whole {
            return Ok(WRONG_RECORD);
        }
        if whole < wanted {
            return Ok(WRONG_TABLE);
        }
        count -= wanted;
    }
    match fill(input, &mut [0]) {
        0 => Ok(DONE),
        _ => Ok(WRONG_TABLE),
    }
}

/// The replay program: a line for each record, then one for the trace if it is refused.
/// Only the output can fail; it gets whole batches and needs no buffer.
pub fn run_replay(mut input: impl Read, output: &mut impl Write) -> io::Result<()> {
    let number = match read_contents(&mut input) {
        Ok(count) => replay_records(count, &mut input, output)?,
        Err(number) => number,
    };
    if number != DONE {
        print_answer(Answer { value: 0, number }, output)?;
    }
    output.flush()
}

#[cfg(test)]
mod tests;
