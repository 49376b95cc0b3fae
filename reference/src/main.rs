//! Second program for the host interface of an I3C controller.
//!
//! `reference` runs a session from standard input, `reference test` also takes
//! lines for set-ups and bursts, `reference replay` replays a bench trace from
//! standard input, `reference check` runs the cases marked P, `reference demand`
//! judges any program's answers to a script by demand 3, `reference formed` judges
//! whether the images on standard input are those of well-formed banks.

#![forbid(unsafe_code)]

use reference::lines::{run_session, Mode};
use reference::{cases, demand, formed, trace};
use std::env;
use std::io::{self, BufWriter};
use std::path::Path;
use std::process::ExitCode;

fn run_input(mode: Mode) -> ExitCode {
    let input = io::stdin().lock();
    let mut output = BufWriter::new(io::stdout().lock());
    // A failed read or write ends the program without a message.
    match run_session(input, &mut output, mode) {
        Ok(()) => ExitCode::SUCCESS,
        Err(_) => ExitCode::FAILURE,
    }
}

/// Exit status 0 always: what is wrong with the trace stands in the last line, and an
/// output that can't be written ends the program quietly.
fn run_replay() -> ExitCode {
    let _ = trace::run_replay(io::stdin().lock(), &mut io::stdout().lock());
    ExitCode::SUCCESS
}

fn run_check() -> ExitCode {
    let failed = cases::failed_cases();
    for name in &failed {
        println!("failed: {name}");
    }
    if failed.is_empty() {
        println!("ok");
        ExitCode::SUCCESS
    } else {
        ExitCode::FAILURE
    }
}

/// Exit status 0 if all is kept, 1 if a clause is broken, 2 if the input can't be
/// judged or the report can't be written.
fn run_demand(script: &Path, answers: &Path, mode: Mode) -> ExitCode {
    let findings = match demand::judge_files(script, answers, mode) {
        Ok(findings) => findings,
        Err(unusable) => {
            eprintln!("{unusable}");
            return ExitCode::from(2);
        }
    };
    let mut output = BufWriter::new(io::stdout().lock());
    match findings.print(&mut output) {
        Ok(()) if findings.all_kept() => ExitCode::SUCCESS,
        Ok(()) => ExitCode::FAILURE,
        Err(error) => {
            eprintln!("can't write the report: {error}");
            ExitCode::from(2)
        }
    }
}

/// Exit status 0 if each line is an image, well formed or not; else 2.
fn run_formed() -> ExitCode {
    let mut output = BufWriter::new(io::stdout().lock());
    match formed::run_formed(io::stdin().lock(), &mut output) {
        Ok(()) => ExitCode::SUCCESS,
        Err(error) => {
            eprintln!("{error}");
            ExitCode::from(2)
        }
    }
}

const USAGE: &str = "\
usage: reference                             answers the session on standard input
       reference test                        the same, set-up and burst lines too
       reference replay                      replays the bench trace on standard input
       reference check                       runs the cases marked P
       reference demand SCRIPT ANSWERS       judges answers to a session by demand 3
       reference demand SCRIPT ANSWERS test  the same, set-up and burst lines too
       reference formed                      judges the images on standard input";

fn main() -> ExitCode {
    let arguments: Vec<_> = env::args_os().skip(1).collect();
    match arguments.as_slice() {
        [] => run_input(Mode::Session),
        [word] if word == "test" => run_input(Mode::Test),
        [word] if word == "replay" => run_replay(),
        [word] if word == "check" => run_check(),
        [word] if word == "formed" => run_formed(),
        [word, script, answers] if word == "demand" => {
            run_demand(Path::new(script), Path::new(answers), Mode::Session)
        }
        [word, script, answers, mode] if word == "demand" && mode == "test" => {
            run_demand(Path::new(script), Path::new(answers), Mode::Test)
        }
        _ => {
            eprintln!("{USAGE}");
            ExitCode::from(2)
        }
    }
}
