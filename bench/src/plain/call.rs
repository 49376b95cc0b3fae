//! The nine calls, and how a record of a trace names one.

/// The bytes of a record.
pub const RECORD: usize = 12;

#[derive(Clone, Copy, Debug, PartialEq, Eq)]
pub enum Call {
    Read { offset: u16 },
    Write { offset: u16, value: u32 },
    Start,
    Send,
    Receive { byte: u8 },
    Finish { code: u8 },
    Interrupt { address: u8, byte: u8 },
    Request { first: u32, second: u32 },
    Take,
}

impl Call {
    /// The call that a record names, if the record is right.
    pub fn of(record: &[u8; RECORD]) -> Option<Call> {
        let &[letter, zero, o0, o1, a0, a1, a2, a3, b0, b1, b2, b3] = record;
        let offset = u16::from_le_bytes([o0, o1]);
        let first = u32::from_le_bytes([a0, a1, a2, a3]);
        let second = u32::from_le_bytes([b0, b1, b2, b3]);
        Call::named(letter, zero, offset, first, second)
    }

    /// The call of a record's numbers. Each letter gathers what must be 0, its unused fields and the
    /// bits above a byte, for one test of all.
    pub fn named(letter: u8, zero: u8, offset: u16, first: u32, second: u32) -> Option<Call> {
        // The offset, for a letter that has none.
        let unused = u32::from(offset);
        let (call, rest) = match letter {
            b'R' => (Call::Read { offset }, first | second),
            b'W' => {
                let value = first;
                (Call::Write { offset, value }, second)
            }
            b'S' => (Call::Start, unused | first | second),
            b'T' => (Call::Send, unused | first | second),
            b'X' => {
                let byte = first as u8;
                (Call::Receive { byte }, unused | first >> 8 | second)
            }
            b'F' => {
                let code = first as u8;
                (Call::Finish { code }, unused | first >> 8 | second)
            }
            b'I' => {
                let (address, byte) = (first as u8, second as u8);
                let above = first >> 8 | second >> 8;
                (Call::Interrupt { address, byte }, unused | above)
            }
            b'D' => (Call::Request { first, second }, unused),
            b'A' => (Call::Take, unused | first | second),
            _ => return None,
        };
        (u32::from(zero) | rest == 0).then_some(call)
    }
}
