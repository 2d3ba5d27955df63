//! Searches of which the reason is asked: samples d and i, a room with every reason, and where nothing is told.

use super::{but, search_cases};
use crate::Refusal;
use crate::room::kind;
use crate::samples::{default_search, route, search_refused};
use crate::search::SearchAnswer;
use crate::why::{MOVES, Told, Why, WhyAnswer};

/// Twelve moves that begin so; the rest lead outside.
fn moves(first: &[u8]) -> [u8; MOVES] {
    let mut moves = [1; MOVES];
    moves[..first.len()].copy_from_slice(first);
    moves
}

fn no_route(expanded: u32, reached: &[(u16, &[u8])]) -> WhyAnswer {
    let told = |(cell, first): &(u16, &[u8])| Told {
        cell: *cell,
        moves: moves(first),
    };
    WhyAnswer {
        search: search_refused(11, expanded),
        reached: reached.iter().map(told).collect(),
    }
}

fn untold(search: SearchAnswer) -> WhyAnswer {
    WhyAnswer {
        search,
        reached: Vec::new(),
    }
}

/// A search in a room of Air but for the given cells.
fn why(sides: [u16; 3], ends: [u32; 2], changes: &[(usize, u8)]) -> Why {
    Why::of(default_search(sides, ends[0], ends[1], changes))
}

/// Sample d: a row of three with Solid in the middle.
fn d() -> Why {
    why([3, 1, 1], [0, 2], &[(1, kind::SOLID)])
}

pub fn whys() -> Vec<(&'static str, Why, WhyAnswer)> {
    let mut list = told();
    list.extend(nothing_told());
    list.extend(order());
    list
}

/// All cases without their answers: those above, then the samples and examples of searches with outputs that just suffice.
pub fn why_cases() -> Vec<Why> {
    let named = whys().into_iter().map(|(_, case, _)| case);
    named
        .chain(search_cases().into_iter().map(Why::of))
        .collect()
}

fn told() -> Vec<(&'static str, Why, WhyAnswer)> {
    let levers = [(0, kind::LEVER), (4, kind::LEVER)];
    let wire_on_lever = [(2, kind::LEVER), (3, kind::REDSTONE_WIRE)];
    vec![
        ("sample d", d(), no_route(1, &[(0, &[1, 2, 1])])),
        (
            "sample i",
            why([3, 2, 1], [1, 5], &[(2, kind::LEVER)]),
            no_route(1, &[(1, &[2, 3, 1])]),
        ),
        (
            "every reason, and the step back to a start over a Lever",
            why([3, 2, 1], [1, 5], &levers),
            no_route(
                3,
                &[
                    (1, &[0, 0, 1]),
                    (2, &[1, 2, 3, 1, 2, 3]),
                    (3, &[2, 3, 1, 2, 3, 1]),
                ],
            ),
        ),
        (
            "taken comes before bad support",
            why([3, 2, 1], [1, 5], &wire_on_lever),
            no_route(1, &[(1, &[2, 2, 1])]),
        ),
        (
            "RedstoneWire is not taken where it is the goal",
            why([3, 2, 1], [1, 3], &wire_on_lever),
            no_route(1, &[(1, &[2, 3, 1])]),
        ),
    ]
}

fn nothing_told() -> Vec<(&'static str, Why, WhyAnswer)> {
    let limit = but(d(), |case| case.search.config.node_limit = 0);
    let queue = but(why([3, 1, 3], [4, 0], &[]), |case| case.search.queue = 4);
    vec![
        (
            "a route: no wall is told",
            why([3, 1, 1], [0, 2], &[]),
            untold(route(&[0, 1, 2], 20, 2)),
        ),
        (
            "an end that is no place for wire",
            why([3, 1, 1], [0, 2], &[(2, kind::LEVER)]),
            untold(search_refused(10, 2)),
        ),
        (
            "cut short by the node limit, in a room without a way",
            limit,
            untold(search_refused(12, 1)),
        ),
        (
            "cut short by the queue",
            queue,
            untold(search_refused(13, 2)),
        ),
    ]
}

/// Either output one byte short is 6, which comes behind 2 and 3 and before 5, 4 and 10.
fn order() -> Vec<(&'static str, Why, WhyAnswer)> {
    let short: [fn(&mut Why); 2] = [|case| case.reached -= 1, |case| case.walls -= 1];
    let faults: [(u8, fn(&mut Why)); 6] = [
        (6, |_| {}),
        (2, |case| case.search.sides[1] = 0),
        (3, |case| case.search.config.support = 1_000_001),
        (6, |case| case.search.kinds[1] = 13),
        (6, |case| case.search.goal = 3),
        (6, |case| case.search.kinds[0] = kind::LEVER),
    ];
    let mut list = Vec::new();
    for shorten in short {
        for (number, fault) in faults {
            let answer = untold(SearchAnswer::Refused(Refusal::bare(number)));
            let case = but(but(d(), shorten), fault);
            list.push(("an output one byte short", case, answer));
        }
    }
    list
}
