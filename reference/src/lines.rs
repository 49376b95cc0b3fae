//! Session lines: parsing, running and printing (01, 'A session').

use crate::engine::{set_up, Answer, Bank, Call, SetupNumbers, SESSION_NUMBERS};
use crate::number::DONE;
use std::io::{self, BufRead, Write};

/// The most reads of a burst, and one word more.
const OUTPUT_WORDS: usize = 16;

/// What one line asks for.
#[derive(Clone, Copy, Debug, PartialEq, Eq)]
pub(crate) enum Request {
    Call(Call),
    SetUp(SetupNumbers),
    /// How many words of the output the events get from now on.
    Lend(usize),
    /// Which word of the output is shown.
    ShowOutput(usize),
}

impl Request {
    pub fn has_answer(&self) -> bool {
        !matches!(self, Request::Lend(_))
    }
}

/// Which lines are read.
#[derive(Clone, Copy, Debug, PartialEq, Eq)]
pub enum Mode {
    /// Those of a session.
    Session,
    /// Those and `B`, a set-up; `G`, the trigger; `O`, the words lent to
    /// the events; `P`, a word of the output.
    Test,
}

/// The letters of a session's lines. A record of a trace has the same ones (02 §1), so both
/// readers ask here.
#[derive(Clone, Copy, Debug, PartialEq, Eq)]
pub(crate) enum Letter {
    W,
    R,
    S,
    T,
    X,
    F,
    I,
    D,
    A,
}

impl Letter {
    pub fn of_byte(byte: u8) -> Option<Letter> {
        let letter = match byte {
            b'W' => Letter::W,
            b'R' => Letter::R,
            b'S' => Letter::S,
            b'T' => Letter::T,
            b'X' => Letter::X,
            b'F' => Letter::F,
            b'I' => Letter::I,
            b'D' => Letter::D,
            b'A' => Letter::A,
            _ => return None,
        };
        Some(letter)
    }
}

/// The longest line that can be a request: `B` and eleven fields of eight digits.
const LONGEST_REQUEST: usize = 1 + 11 * 9;

/// A number without sign or prefix; both cases are taken, and zeros in front count as
/// digits.
fn parse_hex(field: &[u8], most_digits: usize) -> Option<u32> {
    if field.is_empty() || field.len() > most_digits {
        return None;
    }
    let mut value = 0;
    for byte in field {
        value = value << 4 | char::from(*byte).to_digit(16)?;
    }
    Some(value)
}

fn parse_offset(field: &[u8]) -> Option<u16> {
    parse_hex(field, 4).and_then(|value| u16::try_from(value).ok())
}

pub(crate) fn parse_word(field: &[u8]) -> Option<u32> {
    parse_hex(field, 8)
}

fn parse_byte(field: &[u8]) -> Option<u8> {
    parse_hex(field, 2).and_then(|value| u8::try_from(value).ok())
}

/// The call of a session's line, if it is one. Two spaces in a row make an empty field, which
/// no call has.
fn parse_call(fields: &[&[u8]]) -> Option<Call> {
    let [[letter], arguments @ ..] = fields else {
        return None;
    };
    let call = match (Letter::of_byte(*letter)?, arguments) {
        (Letter::W, [offset, value]) => Call::Write {
            offset: parse_offset(offset)?,
            value: parse_word(value)?,
        },
        (Letter::R, [offset]) => Call::Read {
            offset: parse_offset(offset)?,
        },
        (Letter::S, []) => Call::Start,
        (Letter::T, []) => Call::Send,
        (Letter::X, [byte]) => Call::Receive {
            byte: parse_byte(byte)?,
        },
        (Letter::F, [code]) => Call::Finish {
            code: parse_byte(code)?,
        },
        (Letter::I, [address, byte]) => Call::InterruptRequest {
            address: parse_byte(address)?,
            byte: parse_byte(byte)?,
        },
        (Letter::D, [first, second]) => Call::AddressRequest {
            first: parse_word(first)?,
            second: parse_word(second)?,
        },
        (Letter::A, []) => Call::AddressTake,
        _ => return None,
    };
    Some(call)
}

/// `B`, five capacities, five watermarks, ID.
fn parse_set_up(fields: &[&[u8]]) -> Option<SetupNumbers> {
    let [b"B", rest @ ..] = fields else {
        return None;
    };
    let numbers: Vec<u32> = rest
        .iter()
        .map(|field| parse_word(field))
        .collect::<Option<_>>()?;
    let numbers: [u32; 11] = numbers.try_into().ok()?;
    let mut capacities = [0; 5];
    let mut watermarks = [0; 5];
    capacities.copy_from_slice(&numbers[0..5]);
    watermarks.copy_from_slice(&numbers[5..10]);
    Some(SetupNumbers {
        capacities,
        watermarks,
        id: numbers[10],
    })
}

/// `O` and how many words, at most all.
fn parse_lend(fields: &[&[u8]]) -> Option<usize> {
    let [b"O", count] = fields else {
        return None;
    };
    let count = usize::from(parse_byte(count)?);
    (count <= OUTPUT_WORDS).then_some(count)
}

/// `P` and the word's place, one digit.
fn parse_show_output(fields: &[&[u8]]) -> Option<usize> {
    let [b"P", place] = fields else {
        return None;
    };
    parse_hex(place, 1).map(|place| place as usize)
}

fn parse_test_line(fields: &[&[u8]]) -> Option<Request> {
    if fields == [b"G"] {
        return Some(Request::Call(Call::Trigger));
    }
    parse_set_up(fields)
        .map(Request::SetUp)
        .or_else(|| parse_lend(fields).map(Request::Lend))
        .or_else(|| parse_show_output(fields).map(Request::ShowOutput))
}

/// The line comes without its newline. None for one that is passed over.
pub(crate) fn parse_line(line: &[u8], mode: Mode) -> Option<Request> {
    let fields: Vec<&[u8]> = line.split(|byte| *byte == b' ').collect();
    if let Some(call) = parse_call(&fields) {
        return Some(Request::Call(call));
    }
    match mode {
        Mode::Session => None,
        Mode::Test => parse_test_line(&fields),
    }
}

/// The bytes of an answer's line: eight digits, a space, two digits, the newline.
pub(crate) const LINE_BYTES: usize = 8 + 1 + 2 + 1;

/// The line of an answer, such as `000000a5 00` (01, 'A session'). By hand and in its
/// place, as `write!` takes longer than most calls.
pub(crate) fn put_answer(answer: Answer, line: &mut [u8; LINE_BYTES]) {
    debug_assert!(answer.number < 100);
    let digit = |value: u8| b"0123456789abcdef"[usize::from(value)];
    let (pairs, _) = line.as_chunks_mut();
    for (pair, byte) in pairs.iter_mut().zip(answer.value.to_be_bytes()) {
        *pair = [digit(byte >> 4), digit(byte & 0xf)];
    }
    line[8] = b' ';
    line[9] = digit(answer.number / 10);
    line[10] = digit(answer.number % 10);
    line[11] = b'\n';
}

pub(crate) fn print_answer(answer: Answer, output: &mut impl Write) -> io::Result<()> {
    let mut line = [0; LINE_BYTES];
    put_answer(answer, &mut line);
    output.write_all(&line)
}

/// The bank of a session, as it is before its first line. The replay program has the same
/// one (02 §1).
pub(crate) fn session_bank() -> Bank {
    set_up(&SESSION_NUMBERS).0
}

/// The state of a program: its bank and the output that it lends to the events.
struct Program {
    bank: Bank,
    output: [u32; OUTPUT_WORDS],
    lent: usize,
}

impl Program {
    /// No line of a session lends an output, so that it is empty there.
    fn new() -> Program {
        Program {
            bank: session_bank(),
            output: [u32::MAX; OUTPUT_WORDS],
            lent: 0,
        }
    }

    /// Answers one request; `O` has no answer.
    fn answer(&mut self, request: &Request) -> Option<Answer> {
        match request {
            Request::Call(call) => Some(self.bank.call(call, &mut self.output[..self.lent])),
            Request::SetUp(numbers) => {
                let (bank, answer) = set_up(numbers);
                self.bank = bank;
                Some(answer)
            }
            Request::Lend(count) => {
                self.output = [u32::MAX; OUTPUT_WORDS];
                self.lent = *count;
                None
            }
            Request::ShowOutput(place) => Some(Answer {
                value: self.output[*place],
                number: DONE,
            }),
        }
    }

    fn run_line(&mut self, line: &[u8], mode: Mode, output: &mut impl Write) -> io::Result<()> {
        let request = parse_line(line, mode);
        match request.and_then(|request| self.answer(&request)) {
            Some(answer) => print_answer(answer, output),
            None => Ok(()),
        }
    }
}

/// Answers each line as it comes; the last one needs no newline (01, 'A session'). Of a
/// line longer than any request only enough is kept to see that it is none.
pub fn run_session(input: impl BufRead, output: &mut impl Write, mode: Mode) -> io::Result<()> {
    let mut program = Program::new();
    let mut line = Vec::with_capacity(LONGEST_REQUEST + 1);
    for byte in input.bytes() {
        let byte = byte?;
        if byte == b'\n' {
            program.run_line(&line, mode, output)?;
            line.clear();
        } else if line.len() <= LONGEST_REQUEST {
            line.push(byte);
        }
    }
    program.run_line(&line, mode, output)?;
    output.flush()
}

#[cfg(test)]
mod tests {
    use super::*;

    fn is_request(line: &[u8]) -> bool {
        parse_line(line, Mode::Session).is_some()
    }

    fn run(input: &[u8], mode: Mode) -> String {
        let mut output = Vec::new();
        run_session(input, &mut output, mode).unwrap();
        String::from_utf8(output).unwrap()
    }

    /// The nine letters of 01, 'A session'.
    #[test]
    fn each_kind_of_line() {
        let lines: [(&[u8], Call); 9] = [
            (
                b"W 00dC a5C30000",
                Call::Write {
                    offset: 0xdc,
                    value: 0xa5c3_0000,
                },
            ),
            (b"R fFfF", Call::Read { offset: 0xffff }),
            (b"S", Call::Start),
            (b"T", Call::Send),
            (b"X 5a", Call::Receive { byte: 0x5a }),
            (b"F ff", Call::Finish { code: 0xff }),
            (
                b"I 8 5A",
                Call::InterruptRequest {
                    address: 8,
                    byte: 0x5a,
                },
            ),
            (
                b"D ffffffff 1",
                Call::AddressRequest {
                    first: 0xffff_ffff,
                    second: 1,
                },
            ),
            (b"A", Call::AddressTake),
        ];
        for (line, call) in lines {
            assert_eq!(parse_line(line, Mode::Session), Some(Request::Call(call)));
        }
    }

    /// Each is near to a call, with one thing wrong.
    #[test]
    fn lines_that_are_no_call() {
        let lines: [&[u8]; 40] = [
            b"",
            b" ",
            b"s",
            b" S",
            b"S ",
            b"S\r",
            b"S\t",
            b"S 0",
            b"T 0",
            b"A 0",
            b"SS",
            b"R",
            b"R ",
            b"R  0",
            b" R 0",
            b"R 0 ",
            b"R\t0",
            b"R 0\r",
            b"R 00000",
            b"R 0x0",
            b"R +0",
            b"R -0",
            b"R g",
            b"R 0 0",
            b"r 0",
            b"W 0",
            b"W 0 000000000",
            b"W 00000 0",
            b"W 0  0",
            b"W 0 0 0",
            b"X 000",
            b"X",
            b"F 000",
            b"I 000 0",
            b"I 0 000",
            b"I 0",
            b"D 0",
            b"D 000000000 0",
            b"R 0\0",
            b"R \xff",
        ];
        for line in lines {
            assert!(!is_request(line), "{:?}", String::from_utf8_lossy(line));
        }
        assert!(!is_request(b"B 4 4 4 4 4 1 3 1 3 3 0"));
    }

    /// As the formatter of the standard library would write it.
    #[test]
    fn form_of_an_answer() {
        for number in 0..100 {
            for value in [0, 1, 0x0123_4567, 0x89ab_cdef, 0xfedc_ba98, u32::MAX] {
                let mut line = Vec::new();
                print_answer(Answer { value, number }, &mut line).unwrap();
                assert_eq!(line, format!("{value:08x} {number:02}\n").into_bytes());
            }
        }
    }

    #[test]
    fn lines_end_at_a_newline_or_the_end() {
        assert_eq!(run(b"", Mode::Session), "");
        assert_eq!(run(b"\n\n", Mode::Session), "");
        assert_eq!(run(b"R 0", Mode::Session), "00000100 00\n");
        assert_eq!(run(b"R 0\n", Mode::Session), "00000100 00\n");
        assert_eq!(
            run(b"\nR 0\n\nR 4", Mode::Session),
            "00000100 00\n00000000 00\n"
        );
        assert_eq!(run(b"R 0\r\nR 0\n", Mode::Session), "00000100 00\n");
    }

    #[test]
    fn a_long_line_is_skipped_whole() {
        let mut input = vec![b'S'; 1_000_000];
        input.extend(b"\nS\n");
        assert_eq!(run(&input, Mode::Session), "00000000 05\n");
        let mut input = b"R 0".to_vec();
        input.extend(vec![b' '; 1_000_000]);
        input.extend(b"R 0\n");
        assert_eq!(run(&input, Mode::Session), "");
    }

    #[test]
    fn set_up_lines_belong_to_test_mode() {
        let input = b"B 4 4 4 4 4 1 3 1 3 3 7\nR 4\n";
        assert_eq!(run(input, Mode::Session), "00000000 00\n");
        assert_eq!(run(input, Mode::Test), "00000000 00\n00000007 00\n");
    }

    #[test]
    fn output_lines_belong_to_test_mode() {
        let lines: [&[u8]; 3] = [b"G", b"O 10", b"P f"];
        for line in lines {
            assert!(!is_request(line));
            assert!(parse_line(line, Mode::Test).is_some());
        }
        let input = b"P 0\nO 2\nG\nP 0\nR 4\n";
        assert_eq!(run(input, Mode::Session), "00000000 00\n");
        assert_eq!(
            run(input, Mode::Test),
            "ffffffff 00\n00000000 05\nffffffff 00\n00000000 00\n"
        );
    }

    #[test]
    fn fields_of_the_output_lines() {
        let lines: [(&[u8], Request); 8] = [
            (b"G", Request::Call(Call::Trigger)),
            (b"O 0", Request::Lend(0)),
            (b"O 0f", Request::Lend(15)),
            (b"O F", Request::Lend(15)),
            (b"O 10", Request::Lend(16)),
            (b"P 0", Request::ShowOutput(0)),
            (b"P f", Request::ShowOutput(15)),
            (b"P A", Request::ShowOutput(10)),
        ];
        for (line, request) in lines {
            assert_eq!(parse_line(line, Mode::Test), Some(request));
        }
        let skipped: [&[u8]; 19] = [
            b"g", b"G ", b" G", b"G 0", b"GG", b"G\r", b"o 0", b"O", b"O ", b"O 11", b"O ff",
            b"O 010", b"O  1", b"O 1 1", b"O g", b"P", b"P 00", b"P 10", b"P g",
        ];
        for line in skipped {
            assert_eq!(parse_line(line, Mode::Test), None);
        }
    }

    /// `O` fills the whole output anew; a set-up leaves it and what is lent.
    #[test]
    fn the_output_between_lines() {
        let read_of_one = "W 40 0\nW 180 1102\nW 2c0 111\nW 100 3\nG\nX 5a\nF 0\n";
        let input = format!(
            "O 1\n{read_of_one}P 0\nP 1\n\
             B 4 4 4 4 4 1 3 1 3 3 0\nP 0\n{read_of_one}O 0\nP 0\nG\nO 2\nG\n"
        );
        let burst = "00000000 00\n".repeat(7);
        let expected = format!(
            "{burst}5a000000 00\nffffffff 00\n\
             00000000 00\n5a000000 00\n{burst}ffffffff 00\n00000000 13\n00000000 00\n"
        );
        assert_eq!(run(input.as_bytes(), Mode::Test), expected);
    }

    #[test]
    fn the_longest_set_up_line() {
        let line = b"B 00000400 00000400 00000400 00000400 00000400 \
                     00000400 00000400 00000400 00000400 00000400 000000ff";
        assert_eq!(line.len(), LONGEST_REQUEST);
        let mut input = line.to_vec();
        input.extend(b"\nR c0\nR 4\n");
        assert_eq!(
            run(&input, Mode::Test),
            "00000000 00\n00000400 00\n000000ff 00\n"
        );
        let mut input = line.to_vec();
        input.extend(b"0\n");
        assert_eq!(run(&input, Mode::Test), "");
    }

    /// The bank of a refused set-up is not well formed, up to the next set-up.
    #[test]
    fn after_a_refused_set_up_every_call_is_refused() {
        let input =
            b"B 0 0 0 0 0 0 0 0 0 0 0\nR 0\nR 1\nW 40 0\nS\nT\nX 0\nF 10\nI 80 0\nD 0 0\nA\nG\n\
                      B 4 4 4 4 4 1 3 1 3 3 0\nR 40\n";
        let expected = "00000000 23\n".to_string()
            + &"00000000 21\n".repeat(11)
            + "00000000 00\n00000001 00\n";
        assert_eq!(run(input, Mode::Test), expected);
    }
}
