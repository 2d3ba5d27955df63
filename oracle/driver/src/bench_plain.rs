//! Times of the plain engine beside the proved search, over the same searches, with the number of its sweeps: counted by plain Rust
//! that makes the same sweeps, since the engine doesn't tell it. A time is as in the file bench.rs.

use std::hint::black_box;

use cases::cheapest::Swept;
use dustroute::lent::{PlainMemory, SEARCH_VALUES};

use crate::bench::{Load, best, loads};
use crate::proved;

/// How often the plain engine is timed.
const RUNS: usize = 3;

pub fn bench() {
    println!(
        "{:<36}{:>10}{:>10}{:>12}{:>13}{:>9}",
        "searches", "reached", "sweeps", "search", "plain engine", "slower"
    );
    for load in loads() {
        measure(&load);
    }
}

/// Prints one line; of several searches the most cells reached and the most sweeps. Both engines have the same cost.
fn measure(load: &Load) {
    let cells = load.searches[0].kinds.len();
    let mut lent = proved::search_memory(cells, 2 * 5 * cells, SEARCH_VALUES, 0);
    let mut plain_lent = PlainMemory::new(cells);
    let mut most = Swept {
        sweeps: 0,
        reached: 0,
    };
    for case in &load.searches {
        let numbers = (
            proved::search(case, &mut lent),
            proved::plain(case, &mut plain_lent),
        );
        assert_eq!(numbers.0, numbers.1, "{}", load.name);
        assert_eq!(lent.values[2], plain_lent.values[2], "{}", load.name);
        let swept = case.sweeps().expect("a lawful search");
        most.sweeps = most.sweeps.max(swept.sweeps);
        most.reached = most.reached.max(swept.reached);
    }
    let search = best(load.runs, || {
        for case in &load.searches {
            black_box(proved::search(black_box(case), &mut lent));
        }
    });
    let plain = best(RUNS, || {
        for case in &load.searches {
            black_box(proved::plain(black_box(case), &mut plain_lent));
        }
    });
    println!(
        "{:<36}{:>10}{:>10}{:>9.3} ms{:>10.1} ms{:>8.0}x",
        load.name,
        most.reached,
        most.sweeps,
        search.as_secs_f64() * 1e3,
        plain.as_secs_f64() * 1e3,
        plain.as_secs_f64() / search.as_secs_f64(),
    );
}
