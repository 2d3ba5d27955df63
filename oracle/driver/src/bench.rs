//! Times: the proved search through its archive, plain Rust over flat arrays, and the published Rust.
//!
//! A time is the processor time of this thread, the best of several runs over the same searches. The proved search clears its memory within the time: `known`
//! and `previous` before and after, `classes`, the whole queue and `path` after. The plain Rust clears `known`, `previous` and
//! `classes` before each search and keeps its memory. For the published Rust the world is built before, and only
//! `astar_route` is timed.

use std::hint::black_box;
use std::time::Duration;

use cases::room::{Config, Room, kind};
use checks::search_due;
use dustroute::lent::SEARCH_VALUES;
use oracle::{Rng, Search, pos_of, router_config, world_of};
use published::routing::astar_route;

use crate::clock;
use crate::flat::Flat;
use crate::proved;

/// Searches that are timed together.
pub struct Load {
    pub name: &'static str,
    pub searches: Vec<Search>,
    /// How often each is timed.
    pub runs: usize,
}

pub fn loads() -> [Load; 4] {
    [open(), maze(), small_rooms(), a_third_solid()]
}

pub fn bench() {
    println!(
        "{:<42}{:>8}{:>12}{:>12}{:>14}{:>9}{:>9}",
        "searches", "routes", "proved", "plain Rust", "published", "to plain", "faster"
    );
    for load in loads() {
        for places in [5, 12] {
            measure(&load, places);
        }
    }
}

fn search(sides: [u16; 3], kinds: Vec<u8>, start: usize, goal: usize) -> Search {
    let cells = kinds.len() as u32;
    Search {
        sides,
        config: Config::DEFAULT,
        start: start as u32,
        goal: goal as u32,
        queue: 12 * cells,
        lent: cells,
        kinds,
    }
}

fn open() -> Load {
    let kinds = vec![kind::AIR; 25 * 25 * 25];
    let goal = kinds.len() - 1;
    Load {
        name: "open 25x25x25",
        searches: vec![search([25; 3], kinds, 0, goal)],
        runs: 25,
    }
}

/// 16,384 cells on 64x4x64: walls to the ceiling, a cell apart, with a gap at alternating ends.
fn maze() -> Load {
    let [wide, high, deep] = [64, 4, 64];
    let mut kinds = vec![kind::AIR; wide * high * deep];
    for x in (1..wide).step_by(2) {
        let gap = if x % 4 == 1 { deep - 1 } else { 0 };
        for z in (0..deep).filter(|z| *z != gap) {
            for y in 0..high {
                kinds[(x * high + y) * deep + z] = kind::SOLID;
            }
        }
    }
    let last = kinds.len() - high * deep;
    let goal = (0..kinds.len())
        .rev()
        .find(|cell| *cell < last && kinds[*cell] == kind::AIR);
    Load {
        name: "maze 64x4x64",
        searches: vec![search([64, 4, 64], kinds, 0, goal.unwrap_or(0))],
        runs: 25,
    }
}

/// A room with so many cells of a hundred Solid, both ends Air.
pub fn random_room(rng: &mut Rng, side: u16, solid: usize, ends: [usize; 2]) -> Search {
    let mut kinds: Vec<u8> = (0..usize::from(side).pow(3))
        .map(|_| {
            if rng.percent(solid) {
                kind::SOLID
            } else {
                kind::AIR
            }
        })
        .collect();
    for end in ends {
        kinds[end] = kind::AIR;
    }
    search([side; 3], kinds, ends[0], ends[1])
}

fn small_rooms() -> Load {
    let mut rng = Rng::new(7);
    let searches = (0..20_000)
        .map(|_| random_room(&mut rng, 5, 20, [0, 124]))
        .collect();
    Load {
        name: "20,000 rooms 5x5x5, 20% Solid",
        searches,
        runs: 5,
    }
}

fn a_third_solid() -> Load {
    let mut rng = Rng::new(7);
    Load {
        name: "25x25x25, 30% Solid",
        searches: vec![random_room(&mut rng, 25, 30, [0, 15_624])],
        runs: 25,
    }
}

/// The least time of `runs`.
pub fn best(runs: usize, mut all: impl FnMut()) -> Duration {
    let run = |_| {
        let start = clock::now();
        all();
        clock::now() - start
    };
    (0..runs).map(run).min().unwrap_or_default()
}

/// Prints one line: each time, and that all answers are the same. The queue has `places` for each cell.
fn measure(load: &Load, places: usize) {
    let cells = load.searches[0].kinds.len();
    let mut lent = proved::search_memory(cells, 2 * places * cells, SEARCH_VALUES, 0);
    let mut flat = Flat::default();
    let mut routes = 0;
    for case in &load.searches {
        let answer = flat.search(case, places * cells);
        let number = proved::search(case, &mut lent);
        routes += usize::from(number == 0);
        assert_eq!(number, u32::from(answer.number()), "{}", load.name);
        assert!(lent == search_due(&lent, case, &answer), "{}", load.name);
    }
    let proved = best(load.runs, || {
        for case in &load.searches {
            black_box(proved::search(black_box(case), &mut lent));
        }
    });
    let plain = best(load.runs, || {
        for case in &load.searches {
            black_box(flat.search(black_box(case), places * cells));
        }
    });
    let published = published_time(load);
    let name = format!("{}, queue {places}V", load.name);
    let milliseconds = |time: Duration| time.as_secs_f64() * 1e3;
    println!(
        "{name:<42}{routes:>8}{:>9.3} ms{:>9.3} ms{:>11.3} ms{:>9.2}{:>8.1}x",
        milliseconds(proved),
        milliseconds(plain),
        milliseconds(published),
        proved.as_secs_f64() / plain.as_secs_f64(),
        published.as_secs_f64() / proved.as_secs_f64(),
    );
}

const RUNS_PUBLISHED: usize = 5;

/// The published Rust's time; the worlds, each in its Solid shell, are built before.
fn published_time(load: &Load) -> Duration {
    let mut total = Duration::ZERO;
    for case in &load.searches {
        let room = Room::new(case.sides, case.kinds.len()).expect("a lawful room");
        let world = world_of(&room, &case.kinds);
        let [start, goal] = [case.start, case.goal].map(|cell| pos_of(&room, cell as usize));
        let config = router_config(&case.config);
        total += best(RUNS_PUBLISHED, || {
            let _ = black_box(astar_route(black_box(&world), start, goal, config));
        });
    }
    total
}
