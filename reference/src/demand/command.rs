//! Command words cut into commands, for the count of demand 3.

use std::collections::VecDeque;

/// Which events a command has: sends, receives, or address requests and takes (01, 'What
/// demand 3 counts').
#[derive(Clone, Copy, Debug, PartialEq, Eq)]
pub enum Kind {
    Write,
    Read,
    Entdaa,
}

impl Kind {
    pub fn name(self) -> &'static str {
        match self {
            Kind::Write => "a write",
            Kind::Read => "a read",
            Kind::Entdaa => "ENTDAA",
        }
    }
}

/// A whole command.
#[derive(Clone, Copy, Debug, PartialEq, Eq)]
pub struct Command {
    pub first: u32,
    /// Present exactly for a CCC.
    second: Option<u32>,
}

// 01, 'Commands and receipts'.
const CCC_BIT: u32 = 1 << 22;
const ENTDAA_CODE: u32 = 0x07;

impl Command {
    /// Nothing but the words decides.
    pub fn kind(&self) -> Kind {
        match self.second {
            Some(word) if word & 0xff == ENTDAA_CODE => Kind::Entdaa,
            _ if self.first & 1 == 1 => Kind::Read,
            _ => Kind::Write,
        }
    }

    /// How many bytes may move for it; its length field counts only where there is a payload
    /// (01, 'What demand 3 counts').
    pub fn commanded_length(&self) -> u32 {
        match self.kind() {
            Kind::Entdaa => 0,
            Kind::Write | Kind::Read => self.first >> 8 & 0xfff,
        }
    }
}

/// Words taken by CMD whose command has not started.
#[derive(Clone, Debug, Default, PartialEq, Eq)]
pub struct WaitingWords {
    words: VecDeque<u32>,
}

impl WaitingWords {
    pub fn push(&mut self, word: u32) {
        self.words.push_back(word);
    }

    pub fn level(&self) -> usize {
        self.words.len()
    }

    /// The first command that waits. A CCC has two words, any other command one; a CCC whose
    /// second word has not come is no command yet (01, 'What demand 3 counts').
    pub fn first_command(&self) -> Option<Command> {
        let first = *self.words.front()?;
        let second = if first & CCC_BIT == 0 {
            None
        } else {
            Some(*self.words.get(1)?)
        };
        Some(Command { first, second })
    }

    /// Removes the first command that waits.
    pub fn start_command(&mut self) -> Option<Command> {
        let command = self.first_command()?;
        self.words.pop_front();
        if command.second.is_some() {
            self.words.pop_front();
        }
        Some(command)
    }
}

#[cfg(test)]
mod tests {
    use super::*;

    fn waiting(words: &[u32]) -> WaitingWords {
        let mut waiting = WaitingWords::default();
        for word in words {
            waiting.push(*word);
        }
        waiting
    }

    #[test]
    fn words_are_cut_from_the_front() {
        // A second word with bit 22 set is no first word.
        let mut words = waiting(&[0x0040_0000, 0x0040_0006, 0x0000_0210, 0x0040_0000]);
        let ccc = words.start_command().unwrap();
        assert_eq!((ccc.first, ccc.second), (0x0040_0000, Some(0x0040_0006)));
        let private = words.start_command().unwrap();
        assert_eq!((private.first, private.second), (0x0000_0210, None));
        assert_eq!(words.start_command(), None);
        assert_eq!(words.level(), 1);
        words.push(7);
        assert_eq!(words.first_command().unwrap().kind(), Kind::Entdaa);
    }

    #[test]
    fn kind_and_commanded_length_come_from_the_words() {
        let cases = [
            (vec![0x000f_ff10], Kind::Write, 0xfff),
            (vec![0xff00_0211], Kind::Read, 2),
            (vec![0x0040_0300, 0x06], Kind::Write, 3),
            (vec![0x0040_0311, 0x87], Kind::Read, 3),
            (vec![0x0040_0311, 0x107], Kind::Entdaa, 0),
        ];
        for (words, kind, length) in cases {
            let command = waiting(&words).first_command().unwrap();
            assert_eq!(command.kind(), kind);
            assert_eq!(command.commanded_length(), length);
        }
    }
}
