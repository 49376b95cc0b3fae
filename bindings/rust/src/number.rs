//! The numbers of answers, and what each means.

use std::fmt;

/// What happened: the number of an answer.
///
/// Any number of a call but [`DONE`](Number::DONE) and [`WRONG_PARITY`](Number::WRONG_PARITY) is a
/// refusal: the call changed nothing and has the value 0, but with [`EMPTY`](Number::EMPTY) that of
/// [`Model::read`](crate::Model::read).
///
/// ```
/// use thymewax::Number;
///
/// assert_eq!(Number::DROPPED_FULL.get(), 1);
/// assert_eq!(
///     Number::DROPPED_FULL.to_string(),
///     "1: a word written to a full CMD or SDO was dropped"
/// );
/// ```
#[derive(Clone, Copy, Debug, PartialEq, Eq, PartialOrd, Ord, Hash)]
pub struct Number(u32);

/// The meanings as docs/ANSWERS.md has them, by number.
const MEANINGS: [&str; 31] = [
    "done",
    "a word written to a full CMD or SDO was dropped",
    "a write to a read-only register was dropped",
    "the queue that was read is empty",
    "no register there",
    "held in reset",
    "a transfer is open",
    "no transfer is open",
    "not in this mode",
    "no whole command waits",
    "not with this transfer, or not now",
    "commanded length reached",
    "SDO is empty",
    "no room in the receiving queue or in the output",
    "ending not allowed here",
    "SDO not empty at the start of ENTDAA",
    "interrupt request not heard",
    "interrupt request not acknowledged",
    "argument out of range",
    "the address word had a wrong parity bit",
    "the transfer's device is not attached",
    "the bank is not well formed",
    "the store has another length",
    "a set-up number is out of range",
    "the trace's mark is wrong",
    "the trace's table or length is wrong",
    "the trace has no such section",
    "a record of the trace is wrong",
    "the burst has no commands",
    "a command of the burst is not carried",
    "a watermark above its queue's capacity was dropped",
];

impl Number {
    /// 0: done.
    pub const DONE: Number = Number(0);
    /// 1: a word written to a full CMD or SDO was dropped.
    pub const DROPPED_FULL: Number = Number(1);
    /// 2: a write to a read-only register was dropped.
    pub const DROPPED_READ_ONLY: Number = Number(2);
    /// 3: the queue that was read is empty.
    pub const EMPTY: Number = Number(3);
    /// 4: no register there.
    pub const NO_REGISTER: Number = Number(4);
    /// 5: held in reset.
    pub const HELD_IN_RESET: Number = Number(5);
    /// 6: a transfer is open.
    pub const TRANSFER_OPEN: Number = Number(6);
    /// 7: no transfer is open.
    pub const NO_TRANSFER: Number = Number(7);
    /// 8: a start in offload mode, or a trigger outside of it.
    pub const NOT_IN_THIS_MODE: Number = Number(8);
    /// 9: no whole command waits.
    pub const NO_COMMAND: Number = Number(9);
    /// 10: not with this transfer, or not now.
    pub const NOT_THIS_KIND: Number = Number(10);
    /// 11: commanded length reached.
    pub const LENGTH_REACHED: Number = Number(11);
    /// 12: SDO is empty.
    pub const SDO_EMPTY: Number = Number(12);
    /// 13: no room in the receiving queue or in the output.
    pub const NO_ROOM: Number = Number(13);
    /// 14: ending not allowed here.
    pub const ENDING_NOT_ALLOWED: Number = Number(14);
    /// 15: SDO not empty at the start of ENTDAA.
    pub const SDO_NOT_EMPTY: Number = Number(15);
    /// 16: interrupt request not heard.
    pub const NOT_HEARD: Number = Number(16);
    /// 17: interrupt request not acknowledged.
    pub const NOT_ACKNOWLEDGED: Number = Number(17);
    /// 18: argument out of range.
    pub const OUT_OF_RANGE: Number = Number(18);
    /// 19: the address word had a wrong parity bit. It was taken, and the request is still open.
    pub const WRONG_PARITY: Number = Number(19);
    /// 20: the transfer's device is not attached.
    pub const NOT_ATTACHED: Number = Number(20);
    /// 21: the bank is not well formed.
    pub const NOT_WELL_FORMED: Number = Number(21);
    /// 22: the store has another length.
    pub const STORE_LENGTH: Number = Number(22);
    /// 23: a set-up number is out of range.
    pub const SET_UP_OUT_OF_RANGE: Number = Number(23);
    /// 24: the trace's mark is wrong.
    pub const WRONG_MARK: Number = Number(24);
    /// 25: the trace's table or length is wrong.
    pub const WRONG_TABLE: Number = Number(25);
    /// 26: the trace has no such section.
    pub const NO_SUCH_SECTION: Number = Number(26);
    /// 27: a record of the trace is wrong.
    pub const WRONG_RECORD: Number = Number(27);
    /// 28: the burst has no commands.
    pub const BURST_HAS_NO_COMMANDS: Number = Number(28);
    /// 29: a command of the burst is not carried.
    pub const NOT_CARRIED: Number = Number(29);
    /// 30: a watermark above its queue's capacity was dropped.
    pub const WATERMARK_ABOVE_CAPACITY: Number = Number(30);

    pub(crate) const fn new(number: u32) -> Number {
        Number(number)
    }

    /// The number itself.
    pub const fn get(self) -> u32 {
        self.0
    }

    /// Whether it is 0.
    pub const fn is_done(self) -> bool {
        self.0 == 0
    }

    /// What it means, in a few words. docs/ANSWERS.md also has the causes and what to do.
    pub fn meaning(self) -> &'static str {
        let known = MEANINGS.get(self.0 as usize);
        known.copied().unwrap_or("not known to this version")
    }
}

impl fmt::Display for Number {
    fn fmt(&self, f: &mut fmt::Formatter<'_>) -> fmt::Result {
        write!(f, "{}: {}", self.0, self.meaning())
    }
}

#[cfg(test)]
mod tests {
    use super::{Number, MEANINGS};

    /// The rows of docs/ANSWERS.md: number and meaning.
    fn rows() -> Vec<(u32, String)> {
        let path = concat!(env!("CARGO_MANIFEST_DIR"), "/../../docs/ANSWERS.md");
        let page = std::fs::read_to_string(path).expect("the page of answers");
        let cells = page.lines().map(|line| line.split('|').map(str::trim));
        cells
            .filter_map(|mut cells| {
                let number = cells.nth(1)?.parse().ok()?;
                Some((number, cells.next()?.to_string()))
            })
            .collect()
    }

    #[test]
    fn meanings_are_those_of_the_page() {
        let rows = rows();
        assert_eq!(rows.len(), MEANINGS.len());
        for (number, meaning) in rows {
            assert_eq!(Number::new(number).meaning(), meaning, "{number}");
        }
    }

    #[test]
    fn a_number_of_another_version_has_a_text() {
        assert_eq!(Number::new(31).to_string(), "31: not known to this version");
        assert_eq!(Number::new(u32::MAX).meaning(), "not known to this version");
    }
}
