//! Times: a search that finds no route, and the same with its reason, through the archive.
//!
//! A time is taken as in `bench`. Both clear their memory within the time, the reason its two outputs as well.

use std::hint::black_box;
use std::time::Duration;

use cases::room::kind;
use checks::why_due;
use dustroute::lent::SEARCH_VALUES;
use oracle::{Rng, Search, Why};

use crate::bench::{best, random_room};
use crate::proved::{self, search_memory, why_memory};

const SIDE: u16 = 25;
const GOAL: usize = 15_624;
const RUNS: usize = 51;

pub fn bench() {
    println!(
        "{:<46}{:>9}{:>12}{:>12}{:>8}",
        "searches without a route", "reached", "search", "why", "ratio"
    );
    for (name, solid) in [("30% Solid", 30), ("open", 0)] {
        for places in [5, 12] {
            measure(name, &goal_closed_in(solid), places);
        }
    }
    measure("start closed in, 30% Solid", &start_closed_in(), 5);
}

/// A room of 25x25x25, from corner to corner, with so many cells of a hundred Solid.
fn from_corner_to_corner(solid: usize) -> Search {
    random_room(&mut Rng::new(7), SIDE, solid, [0, GOAL])
}

/// Solid stands in all cells from which a step leads to this corner of the room.
fn close_in(case: &mut Search, corner: usize) {
    let side = usize::from(SIDE);
    let [x, y, z] = [corner / side / side, corner / side % side, corner % side];
    for (cell, kind) in case.kinds.iter_mut().enumerate() {
        let [dx, dy, dz] = [
            (cell / side / side).abs_diff(x),
            (cell / side % side).abs_diff(y),
            (cell % side).abs_diff(z),
        ];
        if dx + dz == 1 && dy <= 1 {
            *kind = kind::SOLID;
        }
    }
}

fn goal_closed_in(solid: usize) -> Search {
    let mut case = from_corner_to_corner(solid);
    close_in(&mut case, GOAL);
    case
}

fn start_closed_in() -> Search {
    let mut case = from_corner_to_corner(30);
    close_in(&mut case, 0);
    case
}

/// Prints one line: both times, and that the answer is as due. The queue has `places` for each cell.
fn measure(name: &str, search: &Search, places: usize) {
    let cells = search.kinds.len();
    let case = Why::of(search.clone());
    let due = case.plain_answer();
    assert_eq!(due.number(), 11, "{name}");
    let memory = || search_memory(cells, 2 * places * cells, SEARCH_VALUES, 1);
    let mut lent = memory();
    let before = why_memory(memory(), cells, 12 * cells, 1);
    let mut told = before.clone();
    assert_eq!(proved::search(search, &mut lent), 11, "{name}");
    assert_eq!(proved::why(search, &mut told), 11, "{name}");
    assert!(told == why_due(&before, search, cells, &due), "{name}");
    let alone = best(RUNS, || {
        black_box(proved::search(black_box(search), &mut lent));
    });
    let with_reason = best(RUNS, || {
        black_box(proved::why(black_box(search), &mut told));
    });
    let milliseconds = |time: Duration| time.as_secs_f64() * 1e3;
    println!(
        "{:<46}{:>9}{:>9.3} ms{:>9.3} ms{:>8.2}",
        format!("{SIDE}x{SIDE}x{SIDE}, {name}, queue {places}V"),
        due.reached.len(),
        milliseconds(alone),
        milliseconds(with_reason),
        with_reason.as_secs_f64() / alone.as_secs_f64(),
    );
}
