//! Sixteen workers, one command queue. Each worker reads the room of CMD and writes a command if
//! there is room. First they do it apart: the lock is held for the read, and again for the write.
//! All see the same room, all write, and what does not fit is lost; no register tells it. Then they
//! hold the lock for both: nothing is lost, and every receipt that is owed arrives.
//!
//! The thread that began them is the bus: it starts and finishes the commands and reads the receipts.
//! The program prints a table, which `sixteen_workers.txt` has: no total depends on who was faster.
//! The exit status is 1 if a balance fails.

use std::fmt::Write;
use std::process::{self, ExitCode};
use std::sync::{Barrier, Condvar, Mutex, MutexGuard};
use std::thread;
use thymewax::{registers, Answer, Model, Number, SetUp};

const WORKERS: u32 = 16;
/// How many commands each worker has.
const COMMANDS: u32 = 100;
/// Worker 0's device; each has its own.
const FIRST_DEVICE: u32 = 8;
/// The bytes that each command reads.
const LENGTH: u32 = 2;

/// What happened, in one way of working.
#[derive(Clone, Copy, Debug, Default, PartialEq, Eq)]
pub struct Totals {
    /// Writes to CMD, each after a room above 0 was read.
    pub written: u32,
    /// Answered 0.
    pub taken: u32,
    /// Answered 1.
    pub refused: u32,
    /// Of these, those where room and IRQ_SOURCE read the same before and after.
    pub silent: u32,
    pub started: u32,
    pub finished: u32,
    /// For each worker, receipts read with no error, the length, and the sync that comes next.
    pub received: [u32; WORKERS as usize],
}

impl Totals {
    fn receipts(&self) -> u32 {
        self.received.iter().sum()
    }

    /// A worker that read a room above 0 and wrote waits for a receipt.
    fn missing(&self) -> u32 {
        self.written - self.receipts()
    }

    /// The rows of the table.
    fn rows(&self) -> [(&'static str, u32); 8] {
        [
            ("words written after a room above 0", self.written),
            ("  taken (answer 0)", self.taken),
            ("  refused (answer 1): a lost command", self.refused),
            ("  and room and IRQ_SOURCE said nothing", self.silent),
            ("commands started", self.started),
            ("commands finished", self.finished),
            ("receipts read", self.receipts()),
            ("receipts owed that never came", self.missing()),
        ]
    }

    fn balance(&self) -> bool {
        self.written == WORKERS * COMMANDS
            && self.written == self.taken + self.refused
            && self.silent == self.refused
            && self.started == self.taken
            && self.finished == self.started
            && self.receipts() == self.finished
            && self.missing() == self.refused
    }
}

/// The model and the totals behind one lock.
struct Bench {
    model: Model,
    totals: Totals,
}

impl Bench {
    /// Released, with a device for each worker.
    fn new() -> Bench {
        let mut bench = Bench {
            model: Model::set_up(&SetUp::SESSION).expect("a set-up in range"),
            totals: Totals::default(),
        };
        bench.write(registers::ENABLE, 0);
        for worker in 0..WORKERS {
            // DEV_CHAR: address, write enable, attached.
            bench.write(registers::DEV_CHAR, (FIRST_DEVICE + worker) << 9 | 0x102);
        }
        bench
    }

    /// A write that must be done.
    fn write(&mut self, offset: u16, value: u32) {
        done(self.model.write(offset, value));
    }

    fn read(&mut self, offset: u16) -> u32 {
        done(self.model.read(offset))
    }

    fn room(&mut self) -> u32 {
        self.read(registers::CMD_FIFO_ROOM)
    }

    /// What a driver can see of a write to CMD.
    fn seen(&mut self) -> [u32; 2] {
        [registers::CMD_FIFO_ROOM, registers::IRQ_SOURCE].map(|offset| self.read(offset))
    }

    /// A worker writes its command: a read of two bytes from its device.
    fn write_command(&mut self, worker: u32) {
        let before = self.seen();
        let command = LENGTH << 8 | (FIRST_DEVICE + worker) << 1 | 1;
        let answer = self.model.write(registers::CMD_FIFO, command);
        self.totals.written += 1;
        if answer.number == Number::DROPPED_FULL {
            self.totals.refused += 1;
            self.totals.silent += u32::from(self.seen() == before);
        } else {
            done(answer);
            self.totals.taken += 1;
        }
    }

    /// The bus serves one command, and its receipt and its word are read; false if none waits.
    fn serve(&mut self) -> bool {
        let start = self.model.start();
        if start.number == Number::NO_COMMAND {
            return false;
        }
        // Bits 7:1 of a command are the address, which tells whose it is.
        let worker = (done(start) >> 1 & 0x7f) - FIRST_DEVICE;
        self.totals.started += 1;
        for byte in 0..LENGTH {
            done(self.model.receive(byte as u8));
        }
        done(self.model.finish(0));
        self.totals.finished += 1;
        self.read(registers::SDI_FIFO);
        let sync = self.totals.receipts() % 256;
        let receipt = self.read(registers::CMDR_FIFO);
        self.totals.received[worker as usize] += u32::from(receipt == LENGTH << 8 | sync);
        true
    }
}

/// The value of an answer that nothing should refuse here. A thread that failed alone would leave the
/// others waiting for it, so the program ends.
fn done(answer: Answer) -> u32 {
    answer.done().unwrap_or_else(|refusal| {
        eprintln!("a call that must be done was answered {refusal}");
        process::exit(1)
    })
}

fn lock(bench: &Mutex<Bench>) -> MutexGuard<'_, Bench> {
    bench.lock().expect("no thread has failed")
}

/// Room and write under two locks. A barrier makes the loss certain: no worker writes before all
/// have read the room.
pub fn apart() -> Totals {
    let bench = Mutex::new(Bench::new());
    let barrier = Barrier::new(WORKERS as usize + 1);
    thread::scope(|scope| {
        for worker in 0..WORKERS {
            let (bench, barrier) = (&bench, &barrier);
            scope.spawn(move || {
                for _ in 0..COMMANDS {
                    let room = lock(bench).room();
                    barrier.wait();
                    if room > 0 {
                        lock(bench).write_command(worker);
                    }
                    barrier.wait();
                    // The bus serves here.
                    barrier.wait();
                }
            });
        }
        for _ in 0..COMMANDS {
            barrier.wait();
            barrier.wait();
            while lock(&bench).serve() {}
            barrier.wait();
        }
    });
    bench.into_inner().expect("no thread has failed").totals
}

/// Room and write under one lock; who finds no room waits until the bus has made some.
pub fn together() -> Totals {
    let bench = Mutex::new(Bench::new());
    let served = Condvar::new();
    thread::scope(|scope| {
        let work = |worker| {
            let (bench, served) = (&bench, &served);
            scope.spawn(move || {
                for _ in 0..COMMANDS {
                    let mut held = served
                        .wait_while(lock(bench), |bench| bench.room() == 0)
                        .expect("no thread has failed");
                    held.write_command(worker);
                }
            })
        };
        let workers: Vec<_> = (0..WORKERS).map(work).collect();
        loop {
            // Asked before the bus looks, since a worker's last command may come between.
            let ended = workers.iter().all(|worker| worker.is_finished());
            if lock(&bench).serve() {
                served.notify_all();
            } else if ended {
                break;
            } else {
                thread::yield_now();
            }
        }
    });
    bench.into_inner().expect("no thread has failed").totals
}

/// The two ways side by side.
pub fn table(apart: &Totals, together: &Totals) -> String {
    let mut text = format!(
        "{WORKERS} workers, {COMMANDS} commands each, room for 4 words in CMD\n\n\
         {:<42}{:>10}{:>10}\n",
        "room read and word written under", "two locks", "one lock"
    );
    for ((name, apart), (_, together)) in apart.rows().into_iter().zip(together.rows()) {
        writeln!(text, "{name:<42}{apart:>10}{together:>10}").expect("a string takes all");
    }
    text
}

/// All must balance. Apart something is lost; together nothing, and each worker has all its receipts.
pub fn holds(apart: &Totals, together: &Totals) -> bool {
    apart.balance()
        && together.balance()
        && apart.refused > 0
        && together.refused == 0
        && together.received.iter().all(|count| *count == COMMANDS)
}

fn main() -> ExitCode {
    let (apart, together) = (apart(), together());
    print!("{}", table(&apart, &together));
    if holds(&apart, &together) {
        ExitCode::SUCCESS
    } else {
        eprintln!("the totals do not balance");
        ExitCode::FAILURE
    }
}
