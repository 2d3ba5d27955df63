//! Times of whole trees in both modes. `dustroute_tree`, and `dustroute_tree_mode` in either mode, are called by turns; a time is the
//! processor time of this thread, the least of several runs.

use std::hint::black_box;
use std::time::Duration;

use dustroute::lent::TreeMemory;

use crate::bench::best;
use crate::bench_trees::{Load, loads, sheet_of};
use crate::compare_trees::Call;

const RUNS: usize = 15;

/// The calls that are timed, in the order of the columns.
const CALLS: [Call; 3] = [Call::Plain, Call::InMode(0), Call::InMode(1)];

pub fn bench() {
    println!(
        "{:<34}{:>7}{:>15}{:>14}{:>14}{:>8}{:>9}",
        "trees", "cells", "dustroute_tree", "mode 0", "strict", "number", "occupied"
    );
    for load in loads() {
        measure(&load);
    }
}

fn measure(load: &Load) {
    let (sheet, mut lent) = sheet_of(&load.job);
    let mut least = [Duration::MAX; CALLS.len()];
    for _ in 0..RUNS {
        for (time, call) in least.iter_mut().zip(CALLS) {
            *time = once(call, &sheet.bytes, &mut lent).min(*time);
        }
    }
    // the last call was the strict one
    let number = CALLS[2].of(&mut lent, &sheet.bytes);
    let [plain, published, strict] = least.map(|time| time.as_secs_f64() * 1e3);
    println!(
        "{:<34}{:>7}{plain:>12.2} ms{published:>11.2} ms{strict:>11.2} ms{number:>8}{:>9}",
        load.name, sheet.lent, lent.values[2]
    );
}

fn once(call: Call, sheet: &[u8], lent: &mut TreeMemory) -> Duration {
    best(1, || {
        black_box(call.of(lent, black_box(sheet)));
    })
}
