//! Random searches through the plain engine: against Dijkstra's rule at any costs, and against the proved search.

use cases::cheapest::Cheapest;
use cases::generate::random_plain_search;
use cases::text::search_lines;
use checks::{dirty_plain, plain_fault};
use dustroute::lent::{PLAIN_VALUES, PlainMemory, SEARCH_VALUES};
use oracle::{Refusal, Rng, Search};

use crate::compare::{Differences, Draw, extra};
use crate::proved;

/// How the proved search's answers compare with the plain engine's.
#[derive(Default)]
struct Engines {
    /// Routes of both where a flat step costs 10 or more and a stair 20 or more: the same cost.
    same: u64,
    /// Routes of both at lower costs: of the same cost, and dearer by the search.
    below: [u64; 2],
    /// "No route" of both.
    no_route: u64,
}

/// Compares `count` random searches and prints a summary; false if anything differs.
pub fn compare(draw: &Draw) -> bool {
    let mut by_number = [0_u64; 16];
    let mut engines = Engines::default();
    let mut differences = Differences::default();
    for index in 0..draw.count {
        let case = random_plain_search(&mut Rng::for_case(draw.seed, index), draw.profile);
        let due = case.cheapest();
        by_number[usize::from(due.number())] += 1;
        let found = differs(&case, &due, index as u8).and_then(|()| engines.differ(&case, &due));
        if let Err(what) = found {
            differences.add(&draw.name(index), &what, &search_lines(&case));
        }
    }
    let numbers: Vec<String> = (0..)
        .zip(by_number)
        .filter(|(_, count)| *count > 0)
        .map(|(number, count)| format!("{number}: {count}"))
        .collect();
    println!(
        "{} searches of seed {} by the plain engine, by number {}",
        draw.count,
        draw.seed,
        numbers.join(", ")
    );
    println!(
        "the search's routes: {} at 10 and 20, of the same cost; below {} of the same cost, {} dearer; no route of both: {}",
        engines.same, engines.below[0], engines.below[1], engines.no_route
    );
    differences.told()
}

/// How an answer differs from what is due, if it does: through memory of just the lengths of the case, through longer memory, and
/// with too few values. All memory is full of rubbish before.
fn differs(case: &Search, due: &Cheapest, salt: u8) -> Result<(), String> {
    let cells = case.lent as usize;
    let extra = extra(due.number(), salt);
    asked(case, due, cells, PLAIN_VALUES, salt)?;
    asked(case, due, cells + extra, PLAIN_VALUES + extra, salt)?;
    let few = if matches!(due.number(), 2 | 3) {
        due.number()
    } else {
        6
    };
    let refused = Cheapest::Refused(Refusal::bare(few));
    asked(
        case,
        &refused,
        cells,
        usize::from(salt) % PLAIN_VALUES,
        salt,
    )
}

fn asked(
    case: &Search,
    due: &Cheapest,
    cells: usize,
    values: usize,
    salt: u8,
) -> Result<(), String> {
    let memory = PlainMemory {
        values: vec![0; values],
        ..PlainMemory::new(cells)
    };
    let before = dirty_plain(memory, salt | 1);
    let mut after = before.clone();
    let number = proved::plain(case, &mut after);
    match plain_fault(case, due, number, &before, &after) {
        None => Ok(()),
        Some(what) => Err(format!(
            "not as due: {what}; number {number}, values {:?}, due {due:?}",
            after.values
        )),
    }
}

impl Engines {
    /// Asks the proved search, with the node limit and the queue of the case.
    fn differ(&mut self, case: &Search, due: &Cheapest) -> Result<(), String> {
        let mut memory = proved::search_memory(
            case.lent as usize,
            2 * case.queue as usize,
            SEARCH_VALUES,
            0,
        );
        let number = proved::search(case, &mut memory);
        let cost = memory.values[2];
        let priced = case.config.horizontal >= 10 && case.config.stair >= 20;
        match (number, due) {
            (0, Cheapest::Cost(least)) if priced && cost == *least => self.same += 1,
            (0, Cheapest::Cost(least)) if !priced && cost >= *least => {
                self.below[usize::from(cost > *least)] += 1;
            }
            (11, Cheapest::Refused(Refusal { number: 11, .. })) => self.no_route += 1,
            (0 | 11, _) => return Err(format!("the search says {number}, {cost}; due {due:?}")),
            _ => {}
        }
        Ok(())
    }
}
