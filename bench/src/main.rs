//! The benchmark: verifies that the model and the plain engine leave the same, then times both in
//! several processes and prints tables. `bench [PROCESSES [LIST]]`: 5 processes and every list where
//! none is given.

mod called;
mod each;
mod host;
mod measure;
mod model;
mod verify;
mod work;

use bench::trace::LETTERS;
use measure::{measure, Times};
use model::VARIANTS;
use std::env;
use std::process::Command;
use work::Work;

/// The argument that makes a process measure and print bare figures.
const MEASURE: &str = "measure";

/// One line for each list and variant: four times.
fn print_times(works: &[Work]) {
    for work in works {
        for variant in &VARIANTS {
            let [plain, model] = measure(work, variant);
            println!(
                "{} {} {} {}",
                plain.least, plain.middle, model.least, model.middle
            );
        }
    }
}

/// What another process measured, line by line.
fn times_of_a_process(list: &str) -> Vec<[Times; 2]> {
    let program = env::current_exe().expect("the program has a path");
    let output = Command::new(program).args([MEASURE, list]).output();
    let output = output.expect("the program runs");
    assert!(output.status.success());
    let text = String::from_utf8(output.stdout).expect("the figures are text");
    let times = |line: &str| {
        let figures: Vec<f64> = line.split(' ').map(|f| f.parse().unwrap()).collect();
        [0, 2].map(|n| Times {
            least: figures[n],
            middle: figures[n + 1],
        })
    };
    text.lines().map(times).collect()
}

/// The middle of some figures with their range.
fn spread(mut figures: Vec<f64>) -> String {
    figures.sort_by(f64::total_cmp);
    let (first, last) = (figures[0], figures[figures.len() - 1]);
    let middle = figures[figures.len() / 2];
    format!("{middle:.2} ({first:.2}–{last:.2})")
}

fn print_row(work: &Work, variant: &str, processes: &[[Times; 2]]) {
    let column = |figure: fn(&[Times; 2]) -> f64| spread(processes.iter().map(figure).collect());
    println!(
        "| {} | {} | {} | {} | {} | {} | {} |",
        work.name,
        work.cap,
        variant,
        column(|[plain, _]| plain.least),
        column(|[_, model]| model.least),
        column(|[plain, model]| model.least / plain.least),
        column(|[plain, model]| model.middle / plain.middle),
    );
}

fn print_counts(works: &[Work]) {
    println!(
        "| List | Capacity | {} |",
        LETTERS.map(|l| char::from(l).to_string()).join(" | ")
    );
    println!("|---|---|{}", "---|".repeat(LETTERS.len()));
    for work in works {
        let counts = verify::count(work);
        assert!(work.name != "mixed" || verify::is_mixed_enough(&counts));
        let cells = counts.map(|c| format!("{} of {}", c.answered, c.made));
        println!("| {} | {} | {} |", work.name, work.cap, cells.join(" | "));
    }
}

fn compare(works: &[Work], processes: usize, list: &str) {
    works.iter().for_each(verify::verify);
    verify::verify_wrong(&work::short());
    println!("Same count, last answer, store words and registers on every list.");
    println!("Same count, last answer and store words where a record or file is wrong.\n");
    println!("Calls answered 0, of those made:\n");
    print_counts(works);
    let all: Vec<_> = (0..processes).map(|_| times_of_a_process(list)).collect();
    println!(
        "\nNanoseconds a record, least of a process's runs, and ratios of model to plain, of least"
    );
    println!("and of middle times; each the middle over {processes} processes, with the range:\n");
    println!(
        "| List | Capacity | Model | Plain ns | Model ns | Ratio of least | Ratio of middle |"
    );
    println!("|---|---|---|---|---|---|---|");
    let rows = works
        .iter()
        .flat_map(|work| VARIANTS.iter().map(move |variant| (work, variant)));
    for (n, (work, variant)) in rows.enumerate() {
        let times: Vec<_> = all.iter().map(|process| process[n]).collect();
        print_row(work, variant.name, &times);
    }
}

fn main() {
    let arguments: Vec<String> = env::args().skip(1).collect();
    let (first, list) = match arguments.as_slice() {
        [] => ("5", ""),
        [first] => (first.as_str(), ""),
        [first, list, ..] => (first.as_str(), list.as_str()),
    };
    let mut works = work::all();
    works.retain(|work| list.is_empty() || work.name == list);
    assert!(!works.is_empty(), "no list {list}");
    if first == MEASURE {
        print_times(&works);
    } else {
        let processes = first.parse().expect("a number of processes");
        compare(&works, processes, list);
    }
}
