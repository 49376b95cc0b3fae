//! Checker of demand 3: judges any program's answers to a session script or to one
//! with the lines of test mode. The demand is read as 02 §13 extends it, to data words.
//! Beside it the values of refusals are judged.
//!
//! It reads the script and the answers and nothing else. Of the engine it uses the
//! types of a call, an answer and the set-up numbers, which the line parser gives; it
//! runs no model.

mod clause;
mod command;
mod receipt;
mod refusal;
mod register;
mod room;
mod sdi;
mod sdo;
mod stretch;
mod transfer;
mod waiting;

#[cfg(test)]
mod tests;

use crate::engine::Answer;
use crate::lines::{parse_line, Mode, Request};
use clause::Findings;
use std::fmt;
use std::fs::File;
use std::io::{self, BufRead, BufReader};
use std::path::Path;
use stretch::Count;

/// Why the input can't be judged.
#[derive(Debug)]
pub enum Unusable {
    Unreadable {
        what: &'static str,
        error: io::Error,
    },
    MalformedAnswer {
        line: u64,
    },
    WrongCount {
        calls: u64,
        answers: u64,
    },
}

impl fmt::Display for Unusable {
    fn fmt(&self, f: &mut fmt::Formatter<'_>) -> fmt::Result {
        match self {
            Unusable::Unreadable { what, error } => write!(f, "can't read the {what}: {error}"),
            Unusable::MalformedAnswer { line } => write!(
                f,
                "answers, line {line}: no answer, which is a value of eight small hex digits, one \
                 blank and a number of two decimal digits"
            ),
            Unusable::WrongCount { calls, answers } => {
                write!(
                    f,
                    "the script has {calls} calls, the answers {answers} lines"
                )
            }
        }
    }
}

/// Lines of a file; the last one needs no newline (01, 'A session').
struct Lines<R> {
    input: R,
    what: &'static str,
    line: Vec<u8>,
    /// The number of the present line, counted from 1.
    number: u64,
}

impl<R: BufRead> Lines<R> {
    fn new(input: R, what: &'static str) -> Lines<R> {
        Lines {
            input,
            what,
            line: Vec::new(),
            number: 0,
        }
    }

    /// Reads the next line, without its newline; false at the end.
    fn advance(&mut self) -> Result<bool, Unusable> {
        self.line.clear();
        let count = self
            .input
            .read_until(b'\n', &mut self.line)
            .map_err(|error| Unusable::Unreadable {
                what: self.what,
                error,
            })?;
        if self.line.last() == Some(&b'\n') {
            self.line.pop();
        }
        if count > 0 {
            self.number += 1;
        }
        Ok(count > 0)
    }
}

/// An answer's line, exactly as a session prints it (01, 'A session').
fn parse_answer(line: &[u8]) -> Option<Answer> {
    let line = std::str::from_utf8(line).ok()?;
    let (value, number) = line.split_once(' ')?;
    let is_value = value.len() == 8
        && value
            .bytes()
            .all(|b| matches!(b, b'0'..=b'9' | b'a'..=b'f'));
    let is_number = number.len() == 2 && number.bytes().all(|b| b.is_ascii_digit());
    if !is_value || !is_number {
        return None;
    }
    Some(Answer {
        value: u32::from_str_radix(value, 16).ok()?,
        number: number.parse().ok()?,
    })
}

/// Judges the answers to a script.
fn judge(script: impl BufRead, answers: impl BufRead, mode: Mode) -> Result<Findings, Unusable> {
    let mut script = Lines::new(script, "script");
    let mut answers = Lines::new(answers, "answers");
    let mut count = Count::new();
    let mut calls = 0;
    while script.advance()? {
        // A line that is no call has no answer, nor has the one that lends the output.
        let request = parse_line(&script.line, mode).filter(Request::has_answer);
        let Some(request) = request else {
            continue;
        };
        calls += 1;
        if answers.advance()? {
            let answer = parse_answer(&answers.line).ok_or(Unusable::MalformedAnswer {
                line: answers.number,
            })?;
            match request {
                Request::Call(call) => count.judge_call(script.number, &call, answer),
                Request::SetUp(numbers) => count.set_up(script.number, &numbers, answer),
                Request::Lend(_) | Request::ShowOutput(_) => {}
            }
        }
    }
    while answers.advance()? {}
    if calls != answers.number {
        return Err(Unusable::WrongCount {
            calls,
            answers: answers.number,
        });
    }
    Ok(count.into_findings())
}

fn open(path: &Path, what: &'static str) -> Result<BufReader<File>, Unusable> {
    match File::open(path) {
        Ok(file) => Ok(BufReader::new(file)),
        Err(error) => Err(Unusable::Unreadable { what, error }),
    }
}

/// Judges the answers in one file to the script in another.
pub fn judge_files(script: &Path, answers: &Path, mode: Mode) -> Result<Findings, Unusable> {
    judge(open(script, "script")?, open(answers, "answers")?, mode)
}
