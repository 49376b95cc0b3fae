//! Sections of a trace file, and what a replay gives.
//!
//! All numbers are little-endian. A trace opens with `I3TR` and, in 16 bits, how many sections it has,
//! 1 to 64; of each section follow its start, counted from the file's first byte, and how many
//! records it has, in 32 bits each. A record has 12 bytes: the letter of the call, a zero byte, the
//! offset in 16 bits and two values of 32.

use crate::{raw, Answer, Number, Refusal};

/// What a replay gives: see [`Model::replay`](crate::Model::replay).
#[derive(Clone, Copy, Debug, PartialEq, Eq, Hash)]
#[must_use = "the number says whether the replay went to its end"]
pub struct Replayed {
    /// Done, or why the replay did not begin or where it stopped.
    pub number: Number,
    /// How many records were done. One that the model refuses is done too.
    pub count: usize,
    /// The answer to the last record done, 0 and 0 if there was none.
    pub last: Answer,
}

/// The records of one section, a part of the file; sections are numbered from 0.
///
/// Refused with [`Number::WRONG_MARK`], [`Number::WRONG_TABLE`] or [`Number::NO_SUCH_SECTION`]. The
/// records themselves are not looked at.
pub fn section(file: &[u8], section: u32) -> Result<&[u8], Refusal> {
    let mut place = [0; 2];
    let number = Number::new(raw::section(file, section, &mut place));
    if !number.is_done() {
        return Err(Refusal::new(number));
    }
    let [start, length] = place.map(|bytes| bytes as usize);
    Ok(&file[start..start + length])
}

/// All sections of a trace in order, refused as [`section`] is.
///
/// ```
/// // Two sections: the first has one record, a start, the second has none.
/// let mut file = b"I3TR\x02\x00".to_vec();
/// for (start, count) in [(22u32, 1u32), (34, 0)] {
///     file.extend(start.to_le_bytes());
///     file.extend(count.to_le_bytes());
/// }
/// file.extend(b"S\0\0\0\0\0\0\0\0\0\0\0");
///
/// let sections = thymewax::sections(&file)?;
/// assert_eq!(sections, [&file[22..34], &file[34..]]);
/// # Ok::<(), thymewax::Refusal>(())
/// ```
pub fn sections(file: &[u8]) -> Result<Vec<&[u8]>, Refusal> {
    let mut found = Vec::new();
    for number in 0.. {
        match section(file, number) {
            Ok(records) => found.push(records),
            Err(refusal) if refusal.number() == Number::NO_SUCH_SECTION => break,
            Err(refusal) => return Err(refusal),
        }
    }
    Ok(found)
}
