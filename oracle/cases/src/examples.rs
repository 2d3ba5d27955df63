//! Small cases beside the samples, each for one rule: open points as docs/DECISIONS.md settles them, every refusal, and the
//! order in which refusals are judged. Searches stand here, sheets in `trees`, those at any limits in `limits`, sheets for both modes in `modes`, the reasons of
//! searches in `reasons`, those of sheets in `sinks`, function files in `functions`, routes drawn in `drawings`, parts of jobs in `parts`,
//! repeaters in one call in `plans`, lists of nets in `nets`.
//! Whoever answers cases can run them.

mod drawings;
mod functions;
mod limits;
mod modes;
mod nets;
mod parts;
mod plans;
mod reasons;
mod sinks;
mod trees;

pub use drawings::{drawing_cases, drawings};
pub use functions::{function_cases, functions};
pub use limits::{limit_cases, limits};
pub use modes::{modes, strict_cases};
pub use nets::{list_cases, lists};
pub use parts::{parts, parts_cases};
pub use plans::{plan_cases, plans};
pub use reasons::{why_cases, whys};
pub use sinks::{tree_why_cases, tree_whys};
pub use trees::sheets;

use crate::room::{Config, kind};
use crate::samples::{Sample, default_search, route, samples, search_refused};
use crate::search::{Search, SearchAnswer};
use crate::sheet::Sheet;

pub fn searches() -> Vec<(&'static str, Search, SearchAnswer)> {
    let mut list = search_readings();
    list.extend(search_refusals());
    list.extend(search_order());
    list
}

/// The samples of docs/RULES.md that are searches, then the examples, without their answers.
pub fn search_cases() -> Vec<Search> {
    let samples = samples().into_iter();
    let samples = samples.filter_map(|(_, sample)| match sample {
        Sample::Search(case, _) => Some(case),
        Sample::Sheet(..) => None,
    });
    samples
        .chain(searches().into_iter().map(|(_, case, _)| case))
        .collect()
}

/// The samples of docs/RULES.md that are sheets, then the examples, without their answers.
pub fn sheet_cases() -> Vec<Sheet> {
    let samples = samples().into_iter();
    let samples = samples.filter_map(|(_, sample)| match sample {
        Sample::Search(..) => None,
        Sample::Sheet(case, _) => Some(case),
    });
    samples
        .chain(sheets().into_iter().map(|(_, case, _)| case))
        .collect()
}

/// A search in a room of Air with these costs.
fn priced(sides: [u16; 3], [horizontal, stair, support]: [u32; 3], ends: [u32; 2]) -> Search {
    let mut case = default_search(sides, ends[0], ends[1], &[]);
    case.config = Config {
        horizontal,
        stair,
        support,
        ..case.config
    };
    case
}

/// Takes a fault out of a case.
type Mend<C> = fn(&mut C);

/// A case with one change.
fn but<C>(mut case: C, change: impl FnOnce(&mut C)) -> C {
    change(&mut case);
    case
}

fn search_readings() -> Vec<(&'static str, Search, SearchAnswer)> {
    let same = default_search([2, 2, 2], 5, 5, &[]);
    let tight = but(same, |case| {
        case.config.node_limit = 0;
        case.queue = 1;
    });
    vec![
        (
            "start = goal needs no node and one queue place",
            tight,
            route(&[5], 0, 0),
        ),
        (
            "below 10 and 20 a route need not be cheapest: 43 would do",
            priced([1, 2, 2], [38, 3, 2], [0, 2]),
            route(&[0, 3, 2], 45, 2),
        ),
        (
            "a cell can be expanded again",
            priced([1, 2, 4], [33, 41, 13], [4, 7]),
            route(&[4, 1, 2, 7], 128, 9),
        ),
        (
            "the dearest step is counted in full",
            priced([2, 2, 1], [1_000_000; 3], [1, 3]),
            route(&[1, 3], 2_000_000, 2),
        ),
        (
            "a side of 255, more than a sheet of version 2 has",
            default_search([255, 1, 1], 0, 3, &[]),
            route(&[0, 1, 2, 3], 30, 3),
        ),
    ]
}

/// Sample b: 3x1x1, 0 to 2.
fn b() -> Search {
    default_search([3, 1, 1], 0, 2, &[])
}

fn search_refusals() -> Vec<(&'static str, Search, SearchAnswer)> {
    let refused =
        |name, number, change: fn(&mut Search)| (name, but(b(), change), search_refused(number, 0));
    vec![
        refused("a side of 0", 2, |case| case.sides[1] = 0),
        refused("65,600 cells", 2, |case| case.sides = [41, 40, 40]),
        refused("65,790 cells", 2, |case| case.sides = [2, 129, 255]),
        refused("horizontal cost", 3, |case| {
            case.config.horizontal = 1_000_001
        }),
        refused("stair cost", 3, |case| case.config.stair = 1_000_001),
        refused("support cost", 3, |case| case.config.support = u32::MAX),
        refused("node limit", 3, |case| case.config.node_limit = 800_001),
        refused("the product, before the kinds", 3, |case| {
            case.sides = [13, 127, 1];
            case.config.stair = 1_000_000;
            case.config.support = 1_000_000;
        }),
        refused("a kind too few", 6, |case| case.kinds.truncate(2)),
        refused("a kind too many", 6, |case| case.kinds.push(0)),
        refused("a buffer under V", 6, |case| case.lent = 2),
        refused("no queue place", 6, |case| case.queue = 0),
        refused("kind 13", 5, |case| case.kinds[1] = 13),
        refused("start outside", 4, |case| case.start = 3),
        refused("goal outside", 4, |case| case.goal = u32::MAX),
        (
            "the start is judged before the goal",
            default_search([3, 1, 1], 0, 2, &[(0, kind::SOLID), (2, kind::SOLID)]),
            search_refused(10, 0),
        ),
    ]
}

/// All faults at once, then mended one by one in the order in which they are judged: 2, 3, 6, 5, 4, 10.
fn search_order() -> Vec<(&'static str, Search, SearchAnswer)> {
    let mut case = b();
    case.sides = [0, 1, 1];
    case.config.stair = 1_000_001;
    case.queue = 0;
    case.kinds = vec![kind::LEVER, 13, kind::AIR];
    case.goal = 3;
    let mends: [(u8, Mend<Search>); 6] = [
        (2, |case| case.sides = [3, 1, 1]),
        (3, |case| case.config.stair = 25),
        (6, |case| case.queue = 36),
        (5, |case| case.kinds[1] = kind::AIR),
        (4, |case| case.goal = 2),
        (10, |_| {}),
    ];
    let mut list = Vec::new();
    for (number, mend) in mends {
        let answer = search_refused(number, 0);
        list.push(("a search judges 2, 3, 6, 5, 4, 10", case.clone(), answer));
        mend(&mut case);
    }
    list
}
