//! The writer of trace files: mark, section count, each section's start and record count, records.

pub use crate::plain::call::RECORD;

/// Where the only section starts, and ahead of that where its record count stands.
pub const START: usize = 14;
const COUNT: usize = 10;

/// A record: letter, zero byte, offset, two values.
pub fn record(letter: u8, offset: u16, first: u32, second: u32) -> [u8; RECORD] {
    let mut record = [0; RECORD];
    record[0] = letter;
    record[2..4].copy_from_slice(&offset.to_le_bytes());
    record[4..8].copy_from_slice(&first.to_le_bytes());
    record[8..].copy_from_slice(&second.to_le_bytes());
    record
}

/// The file of some sections.
pub fn file_of(sections: &[&[[u8; RECORD]]]) -> Vec<u8> {
    let mut file = b"I3TR".to_vec();
    file.extend((sections.len() as u16).to_le_bytes());
    let mut start = 6 + 8 * sections.len();
    for records in sections {
        file.extend((start as u32).to_le_bytes());
        file.extend((records.len() as u32).to_le_bytes());
        start += records.as_flattened().len();
    }
    for records in sections {
        file.extend(records.as_flattened());
    }
    file
}

/// A file of one section, whole after each change.
#[derive(Clone)]
pub struct Trace {
    file: Vec<u8>,
}

impl Trace {
    pub fn empty() -> Trace {
        Trace {
            file: file_of(&[&[]]),
        }
    }

    pub fn file(&self) -> &[u8] {
        &self.file
    }

    pub fn records(&self) -> &[[u8; RECORD]] {
        self.file[START..].as_chunks().0
    }

    pub fn count(&self) -> usize {
        self.records().len()
    }

    pub fn push(&mut self, record: [u8; RECORD]) {
        self.file.extend(record);
        self.write_count();
    }

    /// Keeps the first records only.
    pub fn truncate(&mut self, count: usize) {
        self.file.truncate(START + RECORD * count);
        self.write_count();
    }

    pub fn replace(&mut self, n: usize, record: [u8; RECORD]) {
        self.file[START..].as_chunks_mut().0[n] = record;
    }

    fn write_count(&mut self) {
        let count = self.count() as u32;
        self.file[COUNT..START].copy_from_slice(&count.to_le_bytes());
    }
}
