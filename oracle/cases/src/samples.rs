//! Samples a to l of docs/RULES.md, with the answers given there, and the hex sheet of tools/README.md.

use crate::Refusal;
use crate::room::{Config, facing, kind, port};
use crate::search::{Search, SearchAnswer};
use crate::sheet::{Block, Job, Port, Sheet, Sink, TreeAnswer};
use crate::version::{USUAL_RUN, Version};

pub enum Sample {
    Search(Search, SearchAnswer),
    /// With the buffers of program `route`.
    Sheet(Sheet, TreeAnswer),
}

/// Each sample with its name.
pub fn samples() -> Vec<(&'static str, Sample)> {
    let mut samples = searches();
    samples.extend(sheets());
    samples
}

/// A search at the default costs in a room of Air but for the given cells, with a queue of 12V.
pub fn default_search(sides: [u16; 3], start: u32, goal: u32, changes: &[(usize, u8)]) -> Search {
    let cells: usize = sides.iter().map(|side| usize::from(*side)).product();
    let mut kinds = vec![kind::AIR; cells];
    for (cell, kind) in changes {
        kinds[*cell] = *kind;
    }
    Search {
        sides,
        config: Config::DEFAULT,
        start,
        goal,
        queue: 12 * cells as u32,
        lent: cells as u32,
        kinds,
    }
}

pub fn route(path: &[u16], cost: u32, expanded: u32) -> SearchAnswer {
    SearchAnswer::Route {
        path: path.to_vec(),
        cost,
        expanded,
    }
}

pub fn search_refused(number: u8, detail: u32) -> SearchAnswer {
    SearchAnswer::Refused(Refusal::new(number, detail))
}

fn searches() -> Vec<(&'static str, Sample)> {
    let b = |changes: &[(usize, u8)]| default_search([3, 1, 1], 0, 2, changes);
    let g = |changes: &[(usize, u8)]| default_search([3, 2, 1], 1, 5, changes);
    let j = || default_search([3, 1, 3], 4, 0, &[]);
    let limited = |node_limit| {
        let mut case = b(&[]);
        case.config.node_limit = node_limit;
        case
    };
    let dear_support = || {
        let mut case = g(&[]);
        case.config.support = 40;
        case
    };
    let queued = |queue| Search { queue, ..j() };
    let straight = || route(&[0, 1, 2], 20, 2);
    let list = [
        ("a", default_search([1, 1, 1], 0, 0, &[]), route(&[0], 0, 0)),
        ("b", b(&[]), straight()),
        ("c, limit 1", limited(1), search_refused(12, 2)),
        ("c, limit 2", limited(2), straight()),
        ("d, Solid", b(&[(1, kind::SOLID)]), search_refused(11, 1)),
        (
            "d, RedstoneWire",
            b(&[(1, kind::REDSTONE_WIRE)]),
            search_refused(11, 1),
        ),
        (
            "e, RedstoneWire",
            b(&[(2, kind::REDSTONE_WIRE)]),
            straight(),
        ),
        ("e, Lever", b(&[(2, kind::LEVER)]), search_refused(10, 2)),
        (
            "f",
            default_search([3, 2, 1], 0, 4, &[(2, kind::SOLID)]),
            route(&[0, 3, 4], 50, 2),
        ),
        ("g", g(&[]), route(&[1, 3, 5], 50, 4)),
        ("h", dear_support(), route(&[1, 2, 5], 90, 5)),
        ("i", g(&[(2, kind::LEVER)]), search_refused(11, 1)),
        ("j", j(), route(&[4, 1, 0], 20, 3)),
        ("j, queue 5", queued(5), route(&[4, 1, 0], 20, 3)),
        ("j, queue 4", queued(4), search_refused(13, 2)),
    ];
    list.into_iter()
        .map(|(name, case, answer)| (name, Sample::Search(case, answer)))
        .collect()
}

/// A job at the default costs and the usual limits in an empty room, with a Wire source at cell 0.
pub fn default_job(sides: [u16; 3], sinks: &[Port]) -> Job {
    Job {
        version: Version::ONE,
        sides,
        config: Config::DEFAULT,
        run: USUAL_RUN,
        blocks: Vec::new(),
        conductors: Vec::new(),
        clearances: Vec::new(),
        terminals: Vec::new(),
        reserved: Vec::new(),
        source: wire([0, 0, 0], facing::NONE),
        sinks: sinks.iter().copied().map(Sink::from).collect(),
    }
}

pub fn wire(at: [u16; 3], facing: u8) -> Port {
    Port {
        at,
        kind: port::WIRE,
        facing,
    }
}

pub fn block_power(at: [u16; 3], facing: u8) -> Port {
    Port {
        at,
        kind: port::BLOCK_POWER,
        facing,
    }
}

/// A block without facing.
pub fn block(node: u16, at: [u16; 3], kind: u8) -> Block {
    Block {
        node,
        at,
        kind,
        facing: facing::NONE,
    }
}

/// The hex sheet of tools/README.md, and what program `route` prints for it.
pub const HEX_SHEET: &str = "01 00000028 0A0101 00007530 0000000A 00000019 0000000F \
    0000 0000 0000 0000 0000 0000000000 01 0900000000";
pub const HEX_SHEET_LINES: &str = "net 1 10\nbranch 0 1 2 3 4 5 6 7 8 9\nrepeaters 1\n";

/// The same row with a tail limit of 3, as docs/RULES.md has it: version 2.
pub const TAIL_SHEET: &str = "02 0000002A 0A0101 00007530 0000000A 00000019 0000000F 0C \
    0000 0000 0000 0000 0000 0000000000 01 0900000000 03";

/// A tree of one branch that runs straight along x from cell 0 to cell `last`.
fn line(last: u16, repeaters: &[u16]) -> TreeAnswer {
    TreeAnswer::Tree {
        branches: vec![(0..=last).collect()],
        occupied: u32::from(last) + 1,
        repeaters: repeaters.to_vec(),
    }
}

fn sheets() -> Vec<(&'static str, Sample)> {
    let k = |x| default_job([20, 1, 1], &[wire([x, 0, 0], facing::NONE)]);
    let mut l = default_job([6, 1, 1], &[block_power([5, 0, 0], facing::WEST)]);
    l.blocks.push(block(0, [5, 0, 0], kind::SOLID));
    let hex = crate::text::parse_hex(HEX_SHEET).expect("a sheet in hex");
    let list = [
        ("k, sink at 8", k(8).bytes(), line(8, &[])),
        ("k, sink at 9", k(9).bytes(), line(9, &[1])),
        ("k, sink at 12", k(12).bytes(), line(12, &[4])),
        ("k, sink at 13", k(13).bytes(), line(13, &[12])),
        ("k, sink at 16", k(16).bytes(), line(16, &[13])),
        ("l", l.bytes(), line(4, &[])),
        ("the hex sheet", hex, line(9, &[1])),
    ];
    list.into_iter()
        .map(|(name, bytes, answer)| (name, Sample::Sheet(Sheet::of_route(bytes), answer)))
        .collect()
}
