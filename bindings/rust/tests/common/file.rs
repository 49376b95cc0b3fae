//! Trace files, written from calls.

use thymewax::Call;

/// The bytes of a record.
pub const RECORD: usize = 12;

/// A call as a record: letter, zero byte, offset, two values. The trigger has no letter.
pub fn record(call: Call) -> Option<[u8; RECORD]> {
    let (letter, offset, first, second) = match call {
        Call::Write { offset, value } => (b'W', offset, value, 0),
        Call::Read { offset } => (b'R', offset, 0, 0),
        Call::Start => (b'S', 0, 0, 0),
        Call::Send => (b'T', 0, 0, 0),
        Call::Receive { byte } => (b'X', 0, u32::from(byte), 0),
        Call::Finish { code } => (b'F', 0, u32::from(code), 0),
        Call::Interrupt { address, byte } => (b'I', 0, u32::from(address), u32::from(byte)),
        Call::Request { first, second } => (b'D', 0, first, second),
        Call::TakeAddress => (b'A', 0, 0, 0),
        Call::Trigger => return None,
    };
    let mut record = [0; RECORD];
    record[0] = letter;
    record[2..4].copy_from_slice(&offset.to_le_bytes());
    record[4..8].copy_from_slice(&first.to_le_bytes());
    record[8..].copy_from_slice(&second.to_le_bytes());
    Some(record)
}

/// A trace with a section for each list of records.
pub fn trace(sections: &[&[[u8; RECORD]]]) -> Vec<u8> {
    let mut file = b"I3TR".to_vec();
    file.extend((sections.len() as u16).to_le_bytes());
    let mut start = 6 + 8 * sections.len();
    for records in sections {
        file.extend((start as u32).to_le_bytes());
        file.extend((records.len() as u32).to_le_bytes());
        start += RECORD * records.len();
    }
    for records in sections {
        file.extend(records.as_flattened());
    }
    file
}
