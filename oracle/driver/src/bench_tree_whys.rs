//! Times: a tree that stops at a sink which can't be reached, and the same with its reason, through the archive; and trees that don't stop.
//!
//! The two are called by turns; a time is the processor time of this thread, the least of several runs. Both clear their memory within
//! the time, the reason its three outputs as well.

use std::hint::black_box;
use std::time::Duration;

use cases::sheet::Job;
use dustroute::lent::{TREE_VALUES, TREE_WHY_VALUES, TreeMemory, TreeWhyMemory};

use crate::bench::best;
use crate::bench_trees::{closets, loads, sheet_of};
use crate::proved::tree_why_memory;

const RUNS: usize = 15;

pub fn bench() {
    println!(
        "{:<44}{:>7}{:>8}{:>9}{:>12}{:>12}{:>8}",
        "trees", "number", "verdict", "reached", "tree", "why", "ratio"
    );
    let trees = loads()
        .into_iter()
        .map(|load| (load.name.to_string(), load.job));
    for (name, job) in closets().into_iter().chain(trees) {
        measure(&name, &job, 0);
        measure(&format!("{name}, strict"), &job, 1);
    }
}

/// Prints one line: both times; the tree's own answer must be the same.
fn measure(name: &str, job: &Job, strict: u32) {
    let (sheet, mut alone) = sheet_of(job);
    let cells = sheet.lent as usize;
    let lent = TreeMemory {
        values: vec![0; TREE_WHY_VALUES],
        ..alone.clone()
    };
    let mut told = tree_why_memory(lent, [cells, 12 * cells, cells], 1);
    let number = told.call(strict, &sheet.bytes);
    assert_eq!(alone.call_mode(strict, &sheet.bytes), number, "{name}");
    assert!(is_same_tree(&alone, &told), "{name}");
    let mut least = [Duration::MAX; 2];
    for _ in 0..RUNS {
        let without = best(1, || {
            black_box(alone.call_mode(strict, black_box(&sheet.bytes)));
        });
        let with = best(1, || {
            black_box(told.call(strict, black_box(&sheet.bytes)));
        });
        least = [least[0].min(without), least[1].min(with)];
    }
    let [without, with] = least.map(|time| time.as_secs_f64() * 1e3);
    println!(
        "{name:<44}{number:>7}{:>8}{:>9}{without:>9.3} ms{with:>9.3} ms{:>8.2}",
        told.tree.values[TREE_VALUES + 1],
        told.reached.iter().filter(|mark| **mark == 1).count(),
        with / without,
    );
}

fn is_same_tree(alone: &TreeMemory, told: &TreeWhyMemory) -> bool {
    let TreeMemory {
        branches,
        occupied,
        repeaters,
        values,
        ..
    } = &told.tree;
    *branches == alone.branches
        && *occupied == alone.occupied
        && *repeaters == alone.repeaters
        && values[..TREE_VALUES] == alone.values
}
