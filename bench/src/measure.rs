//! Times one process's runs of a trace: plain engine and model by turns, each on a cleared store.

use crate::model::Variant;
use crate::work::Work;
use bench::trace::file::Trace;
use std::hint::black_box;
use std::time::Instant;

const RUNS: usize = 21;

/// The least and the middle time of a side's runs, in nanoseconds a record.
#[derive(Clone, Copy)]
pub struct Times {
    pub least: f64,
    pub middle: f64,
}

impl Times {
    fn of(mut runs: Vec<f64>) -> Times {
        runs.sort_by(f64::total_cmp);
        Times {
            least: runs[0],
            middle: runs[runs.len() / 2],
        }
    }
}

/// The time of one run, in nanoseconds a record.
fn time(trace: &Trace, store: &mut Vec<u32>, run: impl FnOnce(&mut Vec<u32>, &[u8])) -> f64 {
    store.fill(0);
    let start = Instant::now();
    run(black_box(&mut *store), black_box(trace.file()));
    let spent = start.elapsed();
    black_box(store);
    spent.as_secs_f64() * 1e9 / trace.count() as f64
}

/// Plain engine, then model.
pub fn measure(work: &Work, variant: &Variant) -> [Times; 2] {
    let (mut plain, mut model) = (Vec::new(), Vec::new());
    let mut store = work.store();
    for _ in 0..RUNS {
        plain.push(time(&work.trace, &mut store, |store, file| {
            match variant.plain {
                None => _ = black_box(work.replay_plain(store, file)),
                Some(plain) => _ = black_box(plain(work.cap, store, file)),
            }
        }));
        model.push(time(&work.trace, &mut store, |store, file| {
            black_box((variant.model)(work.cap, store, file));
        }));
    }
    [Times::of(plain), Times::of(model)]
}
