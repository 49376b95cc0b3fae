//! A trace file: its mark, its table of contents, and the records of a section, uncopied.

use super::call::RECORD;

const MARK: &[u8] = b"I3TR";
const MOST_SECTIONS: usize = 64;
const MOST_BYTES: usize = 16 << 20;

/// Where the table starts, behind the mark and the section count.
const TABLE: usize = 6;

// 02's numbers.
const WRONG_MARK: u32 = 24;
const WRONG_CONTENTS: u32 = 25;
const NO_SUCH_SECTION: u32 = 26;

/// The start and the record count of a section.
type Entry = [u8; 8];

fn start_and_count(entry: &Entry) -> (u32, u32) {
    let &[s0, s1, s2, s3, c0, c1, c2, c3] = entry;
    let start = u32::from_le_bytes([s0, s1, s2, s3]);
    (start, u32::from_le_bytes([c0, c1, c2, c3]))
}

/// The table, if the section count is in range and the table whole.
fn table(file: &[u8]) -> Option<&[Entry]> {
    let count = file.get(MARK.len()..TABLE)?;
    let count = usize::from(u16::from_le_bytes([count[0], count[1]]));
    if count == 0 || count > MOST_SECTIONS {
        return None;
    }
    file[TABLE..].as_chunks().0.get(..count)
}

/// The sections follow in order with no gaps, and the file ends with the last.
fn fits(table: &[Entry], len: usize) -> bool {
    let mut end = (TABLE + size_of_val(table)) as u64;
    for (start, count) in table.iter().map(start_and_count) {
        if u64::from(start) != end {
            return false;
        }
        end += u64::from(count) * RECORD as u64;
    }
    end == len as u64 && len <= MOST_BYTES
}

/// The records of a section, or the number that refuses it.
pub fn section(file: &[u8], section: usize) -> Result<&[[u8; RECORD]], u32> {
    if !file.starts_with(MARK) {
        return Err(WRONG_MARK);
    }
    let table = table(file).filter(|table| fits(table, file.len()));
    let table = table.ok_or(WRONG_CONTENTS)?;
    let entry = table.get(section).ok_or(NO_SUCH_SECTION)?;
    let (start, count) = start_and_count(entry);
    let records = file[start as usize..].as_chunks().0;
    Ok(&records[..count as usize])
}
