//! The clauses of demand 3 and those on refusals, one named check each, and what was found
//! on them.

use std::io::{self, Write};

/// One check. Where no other place is named it is demand 3 of 00, as 01 reads it under 'What
/// demand 3 counts'.
#[derive(Clone, Copy, Debug, PartialEq, Eq)]
pub enum Clause {
    /// Starts follow the order of the words taken, pass over no command and repeat none;
    /// each shows its command's first word.
    StartedInOrder,
    /// CMD holds the words of all other commands and no more.
    RestWaits,
    /// No command starts before the finish of the one before it.
    OneOpen,
    /// No command is open while a burst is, and only one burst at a time (02 §3).
    ApartFromBursts,
    /// An event succeeds only for a command whose words ask for it: bytes sent for a write,
    /// received for a read, addresses for ENTDAA.
    EventsOfItsKind,
    /// A finish makes a receipt, which it shows, and only for an open command. A burst's
    /// finish shows none (02 §3).
    OneReceiptEach,
    /// The sync counts the receipts since the release, in eight bits.
    ReceiptSync,
    /// The length counts the sends and receives that succeeded between start and finish.
    ReceiptLength,
    /// The length does not exceed what the command's words ask for.
    CommandedLength,
    /// The error is the code that the finish got.
    ReceiptError,
    /// Bits 31:24 belong to no field of a receipt (01, 'Commands and receipts').
    ReceiptTop,
    /// Reads of CMDR give the receipts as they were made, one after the other.
    ReceiptsRead,
    /// CMDR holds all receipts that no read has given, and no more.
    ReceiptsQueued,
    /// Where room was seen at 0x0c0 and nothing written to CMD since, the next word is
    /// taken.
    TakenAfterRoom,
    /// A driver that writes all its words in that way loses none.
    NoneMissing,
    /// The bytes sent for a command begin with a new word of SDO, the oldest there, and with
    /// another for each four (02 §13).
    DataSent,
    /// An address take has SDO's oldest word, and is answered by its parity (02 §13).
    AddressesTaken,
    /// SDO holds all its other words, save those that failed writes removed, and no more (02
    /// §13).
    DataWaits,
    /// Reads of SDI give the payloads of reads, padded to whole words, and the words of
    /// address requests as they came (02 §13).
    DataRead,
    /// SDI holds all of these that no read has given, and no more (02 §13).
    DataQueued,
    /// An empty CMDR, SDI or IBI shows the word that was read from it last since the release,
    /// 0 before the first (02 §5).
    EmptyReads,
    /// No other refusal but `WRONG_PARITY` has a value (01, 'Numbers that come back').
    RefusalsBare,
}

/// In the order of the demand's words; data behind commands and receipts, refusals last.
pub const ALL_CLAUSES: [Clause; 22] = [
    Clause::StartedInOrder,
    Clause::RestWaits,
    Clause::OneOpen,
    Clause::ApartFromBursts,
    Clause::EventsOfItsKind,
    Clause::OneReceiptEach,
    Clause::ReceiptSync,
    Clause::ReceiptLength,
    Clause::CommandedLength,
    Clause::ReceiptError,
    Clause::ReceiptTop,
    Clause::ReceiptsRead,
    Clause::ReceiptsQueued,
    Clause::TakenAfterRoom,
    Clause::NoneMissing,
    Clause::DataSent,
    Clause::AddressesTaken,
    Clause::DataWaits,
    Clause::DataRead,
    Clause::DataQueued,
    Clause::EmptyReads,
    Clause::RefusalsBare,
];

impl Clause {
    pub fn name(self) -> &'static str {
        match self {
            Clause::StartedInOrder => "commands started in order, each once",
            Clause::RestWaits => "commands not started still wait",
            Clause::OneOpen => "started commands finished, save the last while open",
            Clause::ApartFromBursts => "commands and bursts open one at a time",
            Clause::EventsOfItsKind => "events of the open command's kind",
            Clause::OneReceiptEach => "one receipt for each finished command",
            Clause::ReceiptSync => "receipt sync",
            Clause::ReceiptLength => "receipt length is the bytes moved",
            Clause::CommandedLength => "receipt length at most the commanded length",
            Clause::ReceiptError => "receipt error is the finish's code",
            Clause::ReceiptTop => "receipt bits 31:24 are 0",
            Clause::ReceiptsRead => "receipts read in order",
            Clause::ReceiptsQueued => "receipts not read still queued",
            Clause::TakenAfterRoom => "command word after a room read above 0 taken",
            Clause::NoneMissing => "no command missing where each is written so",
            Clause::DataSent => "data words sent in order, each once",
            Clause::AddressesTaken => "address words taken in order, each once",
            Clause::DataWaits => "other data words still wait, save those removed",
            Clause::DataRead => "words received read in order",
            Clause::DataQueued => "words received and not read still queued",
            Clause::EmptyReads => "an empty read shows the word read last",
            Clause::RefusalsBare => "other refusals have value 0",
        }
    }
}

/// The first place that breaks a clause.
#[derive(Clone, Debug, PartialEq, Eq)]
pub struct Violation {
    /// The script's line, counted from 1.
    pub line: u64,
    pub text: String,
}

#[derive(Clone, Debug, Default, PartialEq, Eq)]
struct Finding {
    /// How often the clause was judged: 0 shows that the script never tried it.
    cases: u64,
    violation: Option<Violation>,
}

/// What was found on each clause.
#[derive(Clone, Debug, Default, PartialEq, Eq)]
pub struct Findings {
    line: u64,
    findings: [Finding; ALL_CLAUSES.len()],
}

impl Findings {
    /// The script's line of the call judged next.
    pub(super) fn set_line(&mut self, line: u64) {
        self.line = line;
    }

    /// Judges a clause at the present line. `text` says what was expected and what
    /// was seen.
    pub(super) fn judge(&mut self, clause: Clause, kept: bool, text: impl FnOnce() -> String) {
        let finding = &mut self.findings[clause as usize];
        finding.cases += 1;
        if !kept && finding.violation.is_none() {
            finding.violation = Some(Violation {
                line: self.line,
                text: text(),
            });
        }
    }

    pub(super) fn violation(&self, clause: Clause) -> Option<&Violation> {
        self.findings[clause as usize].violation.as_ref()
    }

    pub fn all_kept(&self) -> bool {
        ALL_CLAUSES
            .iter()
            .all(|clause| self.violation(*clause).is_none())
    }

    /// One line for each clause, then `kept` or `broken`.
    pub fn print(&self, output: &mut impl Write) -> io::Result<()> {
        for clause in ALL_CLAUSES {
            let name = clause.name();
            let finding = &self.findings[clause as usize];
            match &finding.violation {
                None => writeln!(output, "kept: {name}: {} cases", finding.cases)?,
                Some(Violation { line, text }) => {
                    writeln!(output, "broken: {name}: line {line}: {text}")?;
                }
            }
        }
        let verdict = if self.all_kept() { "kept" } else { "broken" };
        writeln!(output, "{verdict}")?;
        output.flush()
    }
}
