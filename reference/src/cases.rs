//! The cases marked P in 01, 'A session', each as lines for the session's bank: a line,
//! `=>` and its answer.

use crate::lines::{run_session, Mode};

struct Case {
    name: &'static str,
    session: String,
}

impl Case {
    fn new(name: &'static str, session: &str) -> Case {
        Case {
            name,
            session: session.to_string(),
        }
    }

    /// The lines and the whole output expected for them.
    fn columns(&self) -> (String, String) {
        let mut input = String::new();
        let mut output = String::new();
        for row in self.session.lines().filter(|row| !row.trim().is_empty()) {
            let (line, answer) = row.split_once("=>").unwrap_or((row, ""));
            input += line.trim();
            input += "\n";
            output += answer.trim();
            output += "\n";
        }
        (input, output)
    }

    fn holds(&self) -> bool {
        let (input, expected) = self.columns();
        let mut output = Vec::new();
        let result = run_session(input.as_bytes(), &mut output, Mode::Session);
        result.is_ok() && output == expected.as_bytes()
    }
}

/// The example of 01, whole; 02 §5 changed the value of the last answer.
const WORKED_SESSION: &str = "
    W 0040 00000000 => 00000000 00
    W 0180 00001102 => 00000000 00
    W 00dc a5c30000 => 00000000 00
    W 00d4 00000210 => 00000000 00
    S               => 00000210 00
    T               => 000000a5 00
    T               => 000000c3 00
    F 0             => 00000200 00
    R 00d8          => 00000200 00
    R 00d8          => 00000200 03
";

/// IRQ_SOURCE and FIFO_STATUS with all queues empty.
const AFTER_RELEASE: &str = "
    W 0040 00000000 => 00000000 00
    R 0088          => 00000005 00
    R 00e8          => 00000007 00
";

/// CMD and SDO filled, and one word too many for each.
const ROOM: &str = "
    W 0040 00000000 => 00000000 00
    R 00c0          => 00000004 00
    W 00d4 00000210 => 00000000 00
    W 00d4 00000210 => 00000000 00
    W 00d4 00000210 => 00000000 00
    W 00d4 00000210 => 00000000 00
    R 00c0          => 00000000 00
    W 00d4 00000210 => 00000000 01
    R 00c8          => 00000004 00
    W 00dc 00000000 => 00000000 00
    W 00dc 00000000 => 00000000 00
    W 00dc 00000000 => 00000000 00
    W 00dc 00000000 => 00000000 00
    R 00c8          => 00000000 00
    W 00dc 00000000 => 00000000 01
";

/// A CCC starts only with its second word.
const CCC_WORD_ALONE: &str = "
    W 0040 00000000 => 00000000 00
    W 00d4 00400000 => 00000000 00
    S               => 00000000 09
    W 00d4 00000006 => 00000000 00
    S               => 00400000 00
";

/// Two address words with odd parity, one with even parity between them.
const ADDRESS_WORDS: &str = "
    W 0040 00000000   => 00000000 00
    W 00d4 00400000   => 00000000 00
    W 00d4 00000007   => 00000000 00
    S                 => 00400000 00
    D 1 2             => 00000000 00
    W 00dc 10000000   => 00000000 00
    A                 => 00000008 00
    D 3 4             => 00000000 00
    W 00dc 11000000   => 00000000 00
    A                 => 00000008 19
    W 00dc 13000000   => 00000000 00
    A                 => 00000009 00
    F 0               => 00000000 00
";

/// Five bytes in two words of SDI, the second filled up with zeros.
const READ_OF_FIVE: &str = "
    W 0040 00000000 => 00000000 00
    W 0180 00001102 => 00000000 00
    W 00d4 00000511 => 00000000 00
    S               => 00000511 00
    X 00            => 00000000 00
    X 01            => 00000000 00
    X 02            => 00000000 00
    X 03            => 00000000 00
    X 04            => 00000000 00
    F 0             => 00000500 00
    R 00e0          => 00010203 00
    R 00e0          => 04000000 00
    R 00e0          => 04000000 03
";

/// Device 8 interrupts with a byte.
const INTERRUPT: &str = "
    W 0040 00000000 => 00000000 00
    W 0140 00000003 => 00000000 00
    W 0180 0000110e => 00000000 00
    I 08 5a         => 00105a00 00
    R 00e4          => 00105a00 00
";

/// One byte more than the length, for a write and a read of 2.
const THIRD_BYTE: &str = "
    W 0040 00000000 => 00000000 00
    W 0180 00001102 => 00000000 00
    W 00dc a5c30000 => 00000000 00
    W 00d4 00000210 => 00000000 00
    S               => 00000210 00
    T               => 000000a5 00
    T               => 000000c3 00
    T               => 00000000 11
    F 0             => 00000200 00
    W 00d4 00000211 => 00000000 00
    S               => 00000211 00
    X 01            => 00000000 00
    X 02            => 00000000 00
    X 03            => 00000000 11
";

/// The sync of the last one is 0 again.
fn receipts_257() -> String {
    let mut session = "
        W 0040 00000000 => 00000000 00
        W 0180 00001102 => 00000000 00
    "
    .to_string();
    for n in 0..257 {
        let sync = n % 256;
        session += &format!(
            "
            W 00d4 00000010 => 00000000 00
            S               => 00000010 00
            F 0             => 000000{sync:02x} 00
            R 00d8          => 000000{sync:02x} 00
            "
        );
    }
    session
}

fn all_cases() -> Vec<Case> {
    vec![
        Case::new("worked session", WORKED_SESSION),
        Case::new("after release", AFTER_RELEASE),
        Case::new("room", ROOM),
        Case::new("CCC word alone", CCC_WORD_ALONE),
        Case::new("address words", ADDRESS_WORDS),
        Case::new("read of five bytes", READ_OF_FIVE),
        Case::new("interrupt", INTERRUPT),
        Case::new("third byte", THIRD_BYTE),
        Case::new("257 receipts", &receipts_257()),
    ]
}

/// The names of the cases that do not hold.
pub fn failed_cases() -> Vec<&'static str> {
    all_cases()
        .iter()
        .filter(|case| !case.holds())
        .map(|case| case.name)
        .collect()
}

#[cfg(test)]
mod tests {
    use super::*;

    #[test]
    fn each_case_marked_p_holds() {
        for case in all_cases() {
            let (input, expected) = case.columns();
            let mut output = Vec::new();
            run_session(input.as_bytes(), &mut output, Mode::Session).unwrap();
            assert_eq!(
                String::from_utf8(output).unwrap(),
                expected,
                "{}",
                case.name
            );
        }
    }
}
