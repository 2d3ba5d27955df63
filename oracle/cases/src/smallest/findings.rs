//! The findings.

use super::signs::{
    again, cell_twice, dearer, fills_queue, more_than_cells, one_above_another, overflows_branches,
    repeater_opposed,
};
use super::space::{AIR, FACINGS, Jobs, Searches};
use super::{Fewer, Input, Point, Sign, draw};
use crate::room::{Config, Ranges, facing, kind, port};
use crate::samples::{default_job, default_search, wire};
use crate::search::Search;
use crate::sheet::{Job, MOST_SINKS};

pub fn points() -> Vec<Point> {
    let mut points = searches();
    points.extend(trees());
    points.extend(full_buffers());
    points
}

/// What a cell can be for a search: to be entered, to stand on, an end, or none of these.
const KINDS: &[u8] = &[kind::AIR, kind::SOLID, kind::REDSTONE_WIRE, kind::LEVER];
/// A few costs below and above 10 and 20.
const SOME_COSTS: &[u32] = &[0, 3, 13, 26, 36, 41];
/// Every cost up to 45.
const ALL_COSTS: &[u32] = &{
    let mut costs = [0; 46];
    let mut cost = 0;
    while cost < costs.len() {
        costs[cost] = cost as u32;
        cost += 1;
    }
    costs
};

const ALL_KINDS: Searches = Searches {
    kinds: KINDS,
    costs: SOME_COSTS,
};
const OPEN_ROOMS: Searches = Searches {
    kinds: AIR,
    costs: ALL_COSTS,
};

/// A search in a room of Air at these costs.
fn priced(sides: [u16; 3], [horizontal, stair, support]: [u32; 3], ends: [u32; 2]) -> Search {
    let mut search = default_search(sides, ends[0], ends[1], &[]);
    search.config = Config {
        horizontal,
        stair,
        support,
        ..search.config
    };
    search
}

/// The goal stands on the start, which holds wire and bears nothing: so the goal can't be entered, and all that is pushed is
/// taken.
fn under_the_goal() -> Search {
    let mut search = priced([1, 2, 3], [5, 0, 12], [0, 3]);
    search.kinds[0] = kind::REDSTONE_WIRE;
    search
}

fn searches() -> Vec<Point> {
    vec![
        Point {
            name: "dearer",
            says: "a route that is not the cheapest",
            input: Input::Search(priced([1, 2, 2], [38, 3, 2], [0, 2])),
            sign: Sign::Search(dearer),
            fewer: Fewer::Searches(vec![OPEN_ROOMS, ALL_KINDS]),
        },
        Point {
            name: "again",
            says: "a cell that is expanded again",
            input: Input::Search(priced([1, 2, 3], [26, 0, 36], [2, 3])),
            sign: Sign::Search(again),
            fewer: Fewer::Searches(vec![OPEN_ROOMS, ALL_KINDS]),
        },
        Point {
            name: "more-than-cells",
            says: "more cells expanded than there are",
            input: Input::Search(under_the_goal()),
            sign: Sign::Search(more_than_cells),
            fewer: Fewer::Searches(vec![OPEN_ROOMS, ALL_KINDS]),
        },
    ]
}

const TWO_SINKS: Jobs = Jobs {
    blocks: &[(kind::SOLID, facing::NONE), (kind::LEVER, facing::NONE)],
    most_blocks: 1,
    lists: &[],
    sources: &[(port::WIRE, facing::NONE)],
    sinks: FACINGS,
    most_sinks: 2,
    costs: &[[10, 25, 15], [0, 0, 0]],
};

fn trees() -> Vec<Point> {
    let up = wire([1, 1, 0], facing::NONE);
    let flat = wire([1, 0, 0], facing::NONE);
    vec![
        Point {
            name: "cell-twice",
            says: "a branch of V + 1 cells, so with a cell twice",
            input: Input::Job(default_job([2, 1, 1], &[wire([0; 3], facing::EAST)])),
            sign: Sign::Job(cell_twice),
            fewer: Fewer::Jobs(vec![TWO_SINKS]),
        },
        Point {
            name: "one-above-another",
            says: "a tree with one conductor right above another",
            input: Input::Job(default_job([2, 2, 1], &[flat, up])),
            sign: Sign::Job(one_above_another),
            fewer: Fewer::Jobs(vec![TWO_SINKS]),
        },
        Point {
            name: "opposed",
            says: "a repeater against the branch that brought its cell",
            input: Input::Job(opposed()),
            sign: Sign::Job(repeater_opposed),
            fewer: Fewer::Reason(
                "a repeater takes a path of 10 cells, and the branch that runs against it came another way, \
                 over at least 2 cells more",
            ),
        },
    ]
}

/// Numbers 13 and 15 in program `route`.
fn full_buffers() -> Vec<Point> {
    vec![
        Point {
            name: "queue",
            says: "number 13 in program `route`",
            input: Input::Job(steep_with_blocks()),
            sign: Sign::Job(fills_queue),
            fewer: Fewer::Open("14 cells are needed; no walk goes so far"),
        },
        Point {
            name: "queue-sheet",
            says: "number 13 in program `route`, of a sheet as short as any with a sink",
            input: Input::Job(steep([6, 3, 48], [[0, 2, 44], [5, 2, 0]], [99_999, 7, 1])),
            sign: Sign::Job(fills_queue),
            fewer: Fewer::Open("the room named `queue`"),
        },
        Point {
            name: "branch-buffer",
            says: "number 15 in program `route`",
            input: Input::Job(one_way()),
            sign: Sign::Job(overflows_branches),
            fewer: Fewer::Open("1,500 cells are needed; no walk goes so far"),
        },
    ]
}

/// All goals cost nothing, so each sink is led to the joinable cell of least number.
fn opposed() -> Job {
    let sinks = [
        wire([3, 0, 0], facing::SOUTH),
        wire([1, 0, 2], facing::EAST),
        wire([0, 0, 0], facing::NONE),
        wire([1, 0, 2], facing::EAST),
        wire([0, 0, 1], facing::NORTH),
        wire([0, 0, 2], facing::NONE),
    ];
    let mut job = default_job([4, 1, 3], &sinks);
    job.source = wire([3, 0, 0], facing::NONE);
    job.config.horizontal = 0;
    job
}

/// A room with one sink, at these costs of a flat step, a stair and a support and at the highest node limit. Flat steps cost
/// much, and stairs and supports next to nothing: cells are reached again and again at lower costs.
fn steep(
    sides: [u16; 3],
    [source, sink]: [[u16; 3]; 2],
    [horizontal, stair, support]: [u32; 3],
) -> Job {
    let mut job = default_job(sides, &[wire(sink, facing::NONE)]);
    job.source = wire(source, facing::NONE);
    job.config = Config {
        node_limit: Ranges::OLD.nodes,
        horizontal,
        stair,
        support,
    };
    job
}

fn steep_with_blocks() -> Job {
    let mut job = steep([2, 3, 54], [[1, 2, 53], [1, 0, 0]], [10_000, 2, 5]);
    draw(&mut job, include_str!("steep.txt"));
    job
}

/// The Air cells are one way of 1,024 cells, with the source at its beginning and all sinks at its end. All goals cost
/// nothing, so the first branch is the whole way and each other one all but a cell.
fn one_way() -> Job {
    let sink = wire([38, 0, 36], facing::NORTH);
    let mut job = default_job([39, 1, 41], &[sink; MOST_SINKS]);
    job.source = wire([0, 0, 2], facing::NONE);
    draw(&mut job, include_str!("one_way.txt"));
    job.config.horizontal = 0;
    job
}
