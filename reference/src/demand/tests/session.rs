//! A long correct session for the tests of the checker, and edits of its rows.
//! The answers come from the engine; the checker itself uses none.

use crate::demand::clause::{Clause, ALL_CLAUSES};
use crate::demand::judge;
use crate::lines::{parse_line, run_session, Mode, Request};
use crate::number::{DONE, EMPTY};

pub const RELEASE: &str = "W 0040 00000000";
pub const RESET: &str = "W 0040 00000001";
pub const ROOM: &str = "R 00c0";
pub const RECEIPT: &str = "R 00d8";
/// CMDR, SDI and IBI.
pub const QUEUE_READS: [&str; 3] = [RECEIPT, "R 00e0", "R 00e4"];
/// Rounds of the careful part; each has more than six transfers.
const ROUNDS: u32 = 44;
const CCC: u32 = 1 << 22;

/// A line of the script with its answer; a line that is no call has none.
#[derive(Clone, Debug)]
pub struct Row {
    pub line: String,
    pub answer: Option<String>,
}

#[derive(Clone, Debug)]
pub struct Session {
    pub rows: Vec<Row>,
    mode: Mode,
}

impl Session {
    /// The engine's answers to the lines.
    pub fn run(lines: &[String]) -> Session {
        Session::run_in(Mode::Session, lines)
    }

    pub fn run_in(mode: Mode, lines: &[String]) -> Session {
        let mut output = Vec::new();
        run_session(lines.join("\n").as_bytes(), &mut output, mode).unwrap();
        let output = String::from_utf8(output).unwrap();
        let mut answers = output.lines().map(str::to_string);
        let rows = lines
            .iter()
            .map(|line| Row {
                line: line.clone(),
                answer: parse_line(line.as_bytes(), mode)
                    .filter(Request::has_answer)
                    .map(|_| answers.next().unwrap()),
            })
            .collect();
        Session { rows, mode }
    }

    pub fn lines(&self) -> Vec<String> {
        self.rows.iter().map(|row| row.line.clone()).collect()
    }

    pub fn script(&self) -> String {
        self.lines().join("\n")
    }

    pub fn answers(&self) -> String {
        let answers = self.rows.iter().filter_map(|row| row.answer.clone());
        answers.map(|answer| answer + "\n").collect()
    }

    /// Whether a row's line begins so and its answer has this number.
    pub fn is(&self, row: usize, line: &str, number: u8) -> bool {
        let Row { line: text, answer } = &self.rows[row];
        let end = format!(" {number:02}");
        text.starts_with(line) && answer.as_ref().is_some_and(|a| a.ends_with(&end))
    }

    /// The first such row from `from` on.
    pub fn find(&self, from: usize, line: &str, number: u8) -> usize {
        let mut rows = from..self.rows.len();
        rows.find(|row| self.is(*row, line, number)).unwrap()
    }

    /// The row of this comment line.
    pub fn mark(&self, name: &str) -> usize {
        let line = format!("# {name}");
        self.rows.iter().position(|row| row.line == line).unwrap()
    }

    pub fn count(&self, line: &str, number: u8) -> usize {
        let rows = 0..self.rows.len();
        rows.filter(|row| self.is(*row, line, number)).count()
    }

    pub fn value(&self, row: usize) -> u32 {
        u32::from_str_radix(&self.rows[row].answer.as_ref().unwrap()[..8], 16).unwrap()
    }

    /// The word that a row's line writes.
    pub fn written(&self, row: usize) -> u32 {
        u32::from_str_radix(&self.rows[row].line[7..], 16).unwrap()
    }

    pub fn set(&mut self, row: usize, value: u32, number: u8) {
        assert!(self.rows[row].answer.is_some());
        self.rows[row].answer = Some(format!("{value:08x} {number:02}"));
    }

    pub fn insert(&mut self, row: usize, line: &str, value: u32, number: u8) {
        let answer = Some(format!("{value:08x} {number:02}"));
        let line = line.to_string();
        self.rows.insert(row, Row { line, answer });
    }

    /// A receipt changed alike in the finish and in the read that takes it.
    pub fn set_receipt(&mut self, finish: usize, value: u32) {
        let old = self.value(finish);
        let mut read = self.find(finish, RECEIPT, DONE);
        while self.value(read) != old {
            read = self.find(read + 1, RECEIPT, DONE);
        }
        self.set(finish, value, DONE);
        self.set(read, value, DONE);
    }

    /// Gives the empty reads what those before them now show, so that a fault in a read is
    /// no second one in the next empty read.
    pub fn follow_reads(&mut self) {
        for read in QUEUE_READS {
            let mut last = 0;
            for row in 0..self.rows.len() {
                if self.is(row, RESET, DONE) {
                    last = 0;
                } else if self.is(row, read, DONE) {
                    last = self.value(row);
                } else if self.is(row, read, EMPTY) {
                    self.set(row, last, EMPTY);
                }
            }
        }
    }

    /// The clauses broken, each with its row.
    pub fn broken(&self) -> Vec<(Clause, usize)> {
        let script = self.script();
        let answers = self.answers();
        let findings = judge(script.as_bytes(), answers.as_bytes(), self.mode).unwrap();
        let violated = ALL_CLAUSES.iter().filter_map(|clause| {
            let violation = findings.violation(*clause)?;
            Some((*clause, violation.line as usize - 1))
        });
        violated.collect()
    }
}

/// Writes the lines of the session.
struct Script {
    lines: Vec<String>,
    serial: u32,
    data_words: u32,
    data_bytes: u8,
    /// The room is read before each command word.
    careful: bool,
}

impl Script {
    fn line(&mut self, line: &str) {
        self.lines.push(line.to_string());
    }

    fn repeat(&mut self, line: &str, times: u32) {
        for _ in 0..times {
            self.line(line);
        }
    }

    fn mark(&mut self, name: &str) {
        self.line(&format!("# {name}"));
    }

    fn word(&mut self, word: u32) {
        if self.careful {
            self.line(ROOM);
        }
        self.line(&format!("W 00d4 {word:08x}"));
    }

    /// A first word; bits 31:23, which mean nothing, tell the commands apart.
    fn command(&mut self, word: u32) {
        self.serial = (self.serial + 1) % 512;
        self.word(self.serial << 23 | word);
    }

    /// Words that differ from their neighbours in each byte.
    fn data(&mut self, length: u32) {
        for _ in 0..length.div_ceil(4) {
            self.data_words += 1;
            let word = 0xa5c3_1177_u32.wrapping_add(self.data_words.wrapping_mul(0x1b2d_3f4d));
            self.line(&format!("W 00dc {word:08x}"));
        }
    }

    /// Bytes that differ from their neighbours; none is 0, as the padding is.
    fn receive(&mut self, count: u32) {
        for _ in 0..count {
            self.data_bytes = self.data_bytes % 255 + 1;
            self.line(&format!("X {:02x}", self.data_bytes));
        }
    }

    /// The ending, its receipt and the words received; the last read is refused.
    fn end(&mut self, code: u8, received: u32) {
        self.line(&format!("F {code:x}"));
        self.line(RECEIPT);
        self.repeat("R 00e0", received.div_ceil(4) + 1);
    }

    fn show(&mut self) {
        for offset in ["00c4", "00e8", "0100", "00c8", "00cc", "00c0"] {
            self.line(&format!("R {offset}"));
        }
    }

    fn private_write(&mut self, length: u32) {
        self.mark("private write");
        self.data(length);
        self.command(length << 8 | 0x10);
        self.line("S");
        self.repeat("T", length);
        for refused in ["T", "X 00", "D 1 2", "A", "S", "I 08 5a"] {
            self.line(refused);
        }
        self.show();
        self.end(0, 0);
        self.show();
    }

    fn private_read(&mut self, length: u32, moved: u32) {
        self.mark("private read");
        self.command(length << 8 | 0x11);
        self.line("S");
        self.receive(moved);
        for refused in ["T", "D 1 2", "A"] {
            self.line(refused);
        }
        self.end(0, moved);
    }

    fn broadcast_ccc(&mut self, length: u32) {
        self.mark("broadcast CCC");
        self.data(length);
        self.command(CCC | length << 8);
        self.line("S");
        self.word(0x06);
        self.line("S");
        self.repeat("T", length);
        self.end(0, 0);
    }

    fn direct_ccc_read(&mut self, length: u32, moved: u32) {
        self.mark("direct CCC");
        self.command(CCC | length << 8 | 0x11);
        self.word(0x90);
        self.line("S");
        self.receive(moved);
        self.end(if moved == length { 0 } else { 1 }, moved);
    }

    /// A start answered `SDO_NOT_EMPTY`; only a reset goes on.
    fn entdaa_refused(&mut self) {
        self.mark("ENTDAA refused");
        self.command(CCC | 0x311);
        self.word(0x07);
        self.line("W 00dc 00000000");
        self.line("S");
        self.line(RESET);
        self.line(RELEASE);
    }

    /// Two requests; the first word for the first one has a wrong parity bit.
    fn address_assignment(&mut self) {
        self.mark("ENTDAA");
        self.command(CCC | 0x311);
        self.word(0x07);
        self.line("S");
        self.line("D 12345678 9abcdef0");
        for word in ["11000000", "10000000"] {
            self.line(&format!("W 00dc {word}"));
            self.line("A");
        }
        self.line("T");
        self.line("X 00");
        self.line("D 1 2");
        self.line("W 00dc 13000000");
        self.line("A");
        self.end(0, 16);
    }

    /// Its data leaves SDO with the finish (02 §2), else the next ENTDAA would be refused.
    fn not_acknowledged(&mut self) {
        self.mark("not acknowledged");
        self.data(3);
        self.command(0x0020_0310);
        self.line("S");
        self.line("F 0");
        self.end(6, 0);
    }

    fn not_attached(&mut self) {
        self.mark("not attached");
        self.data(3);
        self.command(0x0000_0340);
        self.line("S");
        self.line("T");
        self.end(8, 0);
    }

    fn write_of(&mut self, length: u32) {
        self.command(length << 8 | 0x10);
        self.line("S");
        self.repeat("T", length);
        self.show();
        self.end(0, 0);
    }

    /// Three words before the first of two writes; the second needs one more, which comes
    /// late.
    fn data_in_advance(&mut self) {
        self.mark("data in advance");
        self.data(12);
        self.show();
        self.write_of(5);
        self.command(0x0610);
        self.line("S");
        self.repeat("T", 5);
        self.data(4);
        self.repeat("T", 2);
        self.end(0, 0);
    }

    /// Full words are read while the read is open; the part word comes with its finish.
    fn read_in_parts(&mut self) {
        self.mark("read in parts");
        self.command(0x0b11);
        self.line("S");
        self.receive(9);
        self.show();
        self.line("R 00e0");
        self.receive(2);
        self.repeat("R 00e0", 2);
        self.show();
        self.end(0, 3);
    }

    /// Of three words a failed write removes two; the next write has the third.
    fn failed_with_more_data(&mut self) {
        self.mark("failed with more data");
        self.data(12);
        self.command(0x0020_0710);
        self.line("S");
        self.show();
        self.end(4, 0);
        self.show();
        self.write_of(3);
    }

    /// A failed write finds one word of three; a later word stays, over a failed read too.
    fn failed_with_less_data(&mut self) {
        self.mark("failed with less data");
        self.data(4);
        self.command(0x0910);
        self.line("S");
        self.end(6, 0);
        self.show();
        self.data(4);
        self.command(0x0811);
        self.line("S");
        self.end(6, 0);
        self.show();
        self.write_of(4);
    }

    /// The word that came for it stays, and the next write has it.
    fn entdaa_unanswered(&mut self) {
        self.mark("ENTDAA unanswered");
        self.command(CCC | 0x400);
        self.word(0x07);
        self.line("S");
        self.data(4);
        self.end(4, 0);
        self.show();
        self.write_of(4);
    }

    /// A fifth word for SDO and a fifth of SDI have no room, nor has a third address request.
    fn full_data_queues(&mut self) {
        self.mark("full data queues");
        self.data(20);
        self.show();
        self.write_of(16);
        self.command(0x1711);
        self.line("S");
        self.receive(20);
        self.show();
        self.line("R 00e0");
        self.receive(4);
        self.line("F 0");
        self.line("R 00e0");
        self.end(0, 16);
        self.command(CCC);
        self.word(0x07);
        self.line("S");
        for _ in 0..2 {
            self.line("D 12345678 9abcdef0");
            self.line("A");
            self.line("W 00dc 10000000");
            self.line("A");
        }
        self.line("D 3 4");
        self.end(0, 16);
    }

    /// Four commands wait, more words are dropped, receipts fill CMDR, a finish has no
    /// room.
    fn full_queues(&mut self) {
        self.mark("full queues");
        for _ in 0..6 {
            self.command(0x10);
        }
        self.line(ROOM);
        for _ in 0..4 {
            self.line("S");
            self.line("F 0");
        }
        self.line("R 00c4");
        self.command(0x10);
        self.line("S");
        self.mark("no room for the receipt");
        self.line("F 0");
        self.line(RECEIPT);
        self.line("F 0");
        self.mark("four receipts");
        self.repeat(RECEIPT, 5);
    }
}

/// Many transfers of each kind, more than 256 receipts in one part, resets in open
/// transfers, words dropped, an address word with wrong parity, data that waits.
pub fn long_session() -> Session {
    let mut script = Script {
        lines: Vec::new(),
        serial: 0,
        data_words: 0,
        data_bytes: 0,
        careful: true,
    };
    script.line("no call");
    for line in ["R 00c0", "W 00d4 00000010", "S", "F 0", RECEIPT] {
        script.line(line);
    }
    // Devices 8 and 9; interrupts.
    for line in ["W 0180 0000110e", "W 0180 00001302", "W 0140 00000003"] {
        script.line(line);
    }
    script.mark("careful part");
    script.line(RELEASE);
    for round in 0..ROUNDS {
        script.private_write(round % 9);
        script.private_read(4 + round % 5, round % 4);
        script.broadcast_ccc(round % 6);
        script.line(RELEASE);
        script.direct_ccc_read(6, round % 7);
        script.address_assignment();
        script.line("I 08 5a");
        script.repeat("R 00e4", 2);
        script.not_acknowledged();
        script.line("");
        script.not_attached();
        if round % 8 == 0 {
            script.data_in_advance();
            script.read_in_parts();
            script.failed_with_more_data();
            script.failed_with_less_data();
            script.entdaa_unanswered();
        }
    }
    script.command(0x0411);
    script.line("S");
    script.receive(2);
    script.mark("reset in a read");
    script.line(RESET);
    for line in ["W 00d4 00000010", "S", "R 00c4", "R 00c0"] {
        script.line(line);
    }
    for read in QUEUE_READS {
        script.line(read);
    }
    script.careful = false;
    script.mark("careless part");
    script.line(RELEASE);
    for read in QUEUE_READS {
        script.line(read);
    }
    for _ in 0..20 {
        script.full_queues();
    }
    script.private_write(5);
    script.mark("end of the careless part");
    script.line(RESET);
    script.line(RELEASE);
    script.full_data_queues();
    script.line(RESET);
    script.line(RELEASE);
    script.data(4);
    script.command(0x0810);
    script.line("S");
    script.line("T");
    script.mark("reset in a write");
    script.line(RESET);
    script.line(RELEASE);
    script.command(CCC | 0x200);
    script.word(0x06);
    script.line("S");
    script.mark("reset in a CCC");
    script.line(RESET);
    script.line(RELEASE);
    script.entdaa_refused();
    script.command(CCC);
    script.word(0x07);
    script.line("S");
    script.line("D 1 2");
    script.mark("reset in ENTDAA");
    script.line(RESET);
    script.line(RELEASE);
    script.mark("last part");
    script.private_read(4, 4);
    script.command(0x0311);
    script.line("S");
    script.receive(1);
    for _ in 0..5 {
        script.command(0x10);
    }
    Session::run(&script.lines)
}
