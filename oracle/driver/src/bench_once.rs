//! One call of each search or tree whose name begins with a word, and nothing is timed: for `valgrind --tool=callgrind`, whose counts of
//! instructions repeat whatever else the machine does.

use std::hint::black_box;

use dustroute::lent::SEARCH_VALUES;

use crate::bench_trees::sheet_of;
use crate::compare_trees::Call;
use crate::{bench, bench_trees, proved};

/// Places of the queue for each cell.
const PLACES: usize = 5;

pub fn bench(words: &[String]) {
    let named = |name: &str| words.iter().any(|word| name.starts_with(word.as_str()));
    for load in bench::loads().iter().filter(|load| named(load.name)) {
        let cells = load.searches[0].kinds.len();
        let mut lent = proved::search_memory(cells, 2 * PLACES * cells, SEARCH_VALUES, 0);
        for case in &load.searches {
            black_box(proved::search(black_box(case), &mut lent));
        }
        println!("{}, queue {PLACES}V", load.name);
    }
    for load in bench_trees::loads().iter().filter(|load| named(load.name)) {
        let (sheet, mut lent) = sheet_of(&load.job);
        black_box(Call::Plain.of(&mut lent, black_box(&sheet.bytes)));
        println!("{}", load.name);
    }
}
