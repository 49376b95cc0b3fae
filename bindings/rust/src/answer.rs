//! What a call gives.

use crate::Number;
use std::{error, fmt};

/// What a call gives: a value, and the number that says what happened.
///
/// The value is 0 where a call has none. A driver author reads the number, since registers are silent
/// about a dropped word; an answer that is not looked at is therefore a warning.
#[derive(Clone, Copy, Debug, PartialEq, Eq, Hash)]
#[must_use = "the number says what happened; no register does"]
pub struct Answer {
    /// The word read, the byte sent, the receipt and so on.
    pub value: u32,
    /// What happened.
    pub number: Number,
}

impl Answer {
    /// The low half of `word` is the value, the high half the number.
    pub(crate) fn of_halves(word: u64) -> Answer {
        Answer {
            value: word as u32,
            number: Number::new((word >> 32) as u32),
        }
    }

    /// Whether the number is 0.
    pub const fn is_done(self) -> bool {
        self.number.is_done()
    }

    /// The value if the number is 0, else the number as an error, for use with `?`.
    ///
    /// A take of an address with a wrong parity bit ([`Number::WRONG_PARITY`]) is an error here,
    /// though it took the word; its address is in [`value`](Answer::value).
    pub fn done(self) -> Result<u32, Refusal> {
        if self.is_done() {
            Ok(self.value)
        } else {
            Err(Refusal::new(self.number))
        }
    }
}

/// `00000310, 0: done`
impl fmt::Display for Answer {
    fn fmt(&self, f: &mut fmt::Formatter<'_>) -> fmt::Result {
        write!(f, "{:08x}, {}", self.value, self.number)
    }
}

/// A number other than 0, as an error.
#[derive(Clone, Copy, Debug, PartialEq, Eq, Hash)]
pub struct Refusal(Number);

impl Refusal {
    pub(crate) fn new(number: Number) -> Refusal {
        debug_assert!(!number.is_done());
        Refusal(number)
    }

    /// Why it was refused.
    pub const fn number(self) -> Number {
        self.0
    }
}

impl fmt::Display for Refusal {
    fn fmt(&self, f: &mut fmt::Formatter<'_>) -> fmt::Result {
        self.0.fmt(f)
    }
}

impl error::Error for Refusal {}
