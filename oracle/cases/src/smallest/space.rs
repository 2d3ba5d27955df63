//! What is gone through: all searches, or all jobs, of a given number of cells that a few lists of parts can make up.

use crate::room::{Config, Room, facing, kind, port};
use crate::samples::{block, default_job, default_search};
use crate::search::Search;
use crate::sheet::{Job, Port};

/// The sides of every room of so many cells.
pub fn rooms(cells: usize) -> Vec<[u16; 3]> {
    let sides = || 1..=cells;
    let all = sides().flat_map(|x| sides().flat_map(move |y| sides().map(move |z| [x, y, z])));
    all.filter(|sides| sides.iter().product::<usize>() == cells)
        .map(|sides| sides.map(|side| side as u16))
        .collect()
}

fn position(room: &Room, cell: usize) -> [u16; 3] {
    let place = room.place(cell);
    [place.x, place.y, place.z].map(|side| side as u16)
}

/// Counts up through all lists of digits, each below its base.
struct Odometer {
    bases: Vec<usize>,
    digits: Vec<usize>,
}

impl Odometer {
    fn new(bases: Vec<usize>) -> Self {
        let digits = vec![0; bases.len()];
        Self { bases, digits }
    }

    /// False when all lists have been shown.
    fn advance(&mut self) -> bool {
        for (digit, base) in self.digits.iter_mut().zip(&self.bases) {
            *digit += 1;
            if *digit < *base {
                return true;
            }
            *digit = 0;
        }
        false
    }
}

/// A walk: how many inputs were seen, and the first that shows what is looked for.
pub struct Walked<T> {
    pub seen: u64,
    pub first: Option<T>,
}

impl<T> Walked<T> {
    pub fn map<U>(self, wrap: impl FnOnce(T) -> U) -> Walked<U> {
        Walked {
            seen: self.seen,
            first: self.first.map(wrap),
        }
    }
}

/// Searches between any two cells of a room, at each of the costs.
#[derive(Clone, Copy)]
pub struct Searches {
    /// What a cell may hold.
    pub kinds: &'static [u8],
    /// Each of the three costs is one of these.
    pub costs: &'static [u32],
}

impl Searches {
    pub fn walk(&self, cells: usize, shows: fn(&Search) -> bool) -> Walked<Search> {
        let mut seen = 0;
        for sides in rooms(cells) {
            let costs = [self.costs.len(); 3];
            let kinds = vec![self.kinds.len(); cells];
            let mut odometer = Odometer::new([costs.as_slice(), &kinds, &[cells; 2]].concat());
            let mut search = default_search(sides, 0, 0, &[]);
            loop {
                self.set(&mut search, &odometer.digits);
                seen += 1;
                if shows(&search) {
                    let first = Some(search);
                    return Walked { seen, first };
                }
                if !odometer.advance() {
                    break;
                }
            }
        }
        Walked { seen, first: None }
    }

    fn set(&self, search: &mut Search, digits: &[usize]) {
        let (costs, rest) = digits.split_at(3);
        let (kinds, ends) = rest.split_at(search.kinds.len());
        let cost = |place: usize| self.costs[costs[place]];
        search.config = Config {
            horizontal: cost(0),
            stair: cost(1),
            support: cost(2),
            ..search.config
        };
        for (kind, digit) in search.kinds.iter_mut().zip(kinds) {
            *kind = self.kinds[*digit];
        }
        [search.start, search.goal] = [ends[0] as u32, ends[1] as u32];
    }
}

/// The four lists of bare positions, by their place in the sheet.
pub const CONDUCTORS: usize = 0;
pub const CLEARANCES: usize = 1;
pub const TERMINALS: usize = 2;
pub const RESERVED: usize = 3;

/// Jobs with a few blocks, all of one node, and at most one cell in one of the four lists.
#[derive(Clone, Copy)]
pub struct Jobs {
    /// Kind and facing of a block.
    pub blocks: &'static [(u8, u8)],
    pub most_blocks: usize,
    /// The lists that may hold a cell.
    pub lists: &'static [usize],
    /// Port kind and facing of the source, and of a sink.
    pub sources: &'static [(u8, u8)],
    pub sinks: &'static [(u8, u8)],
    pub most_sinks: usize,
    /// Horizontal, stair and support cost.
    pub costs: &'static [[u32; 3]],
}

impl Jobs {
    /// Fewer sinks first, then fewer blocks.
    pub fn walk(&self, cells: usize, shows: &dyn Fn(&Job) -> bool) -> Walked<Job> {
        let mut seen = 0;
        for sinks in 0..=self.most_sinks {
            for blocks in 0..=self.most_blocks.min(cells) {
                for sides in rooms(cells) {
                    let walked = self.walk_room(sides, sinks, blocks, shows);
                    seen += walked.seen;
                    if walked.first.is_some() {
                        return Walked { seen, ..walked };
                    }
                }
            }
        }
        Walked { seen, first: None }
    }

    fn walk_room(
        &self,
        sides: [u16; 3],
        sinks: usize,
        blocks: usize,
        shows: &dyn Fn(&Job) -> bool,
    ) -> Walked<Job> {
        let room = Room::new(sides, usize::MAX).expect("lawful sides");
        let cells = room.cells();
        let mut bases = vec![self.costs.len(), 1 + cells * self.lists.len()];
        bases.push(cells * self.sources.len());
        bases.extend(vec![cells * self.sinks.len(); sinks]);
        bases.extend(vec![cells * self.blocks.len(); blocks]);
        let mut odometer = Odometer::new(bases);
        let mut seen = 0;
        loop {
            if let Some(job) = self.job(&room, sides, sinks, &odometer.digits) {
                seen += 1;
                if shows(&job) {
                    let first = Some(job);
                    return Walked { seen, first };
                }
            }
            if !odometer.advance() {
                return Walked { seen, first: None };
            }
        }
    }

    /// The job of these digits; none if its blocks are not in ascending order of their cells.
    fn job(&self, room: &Room, sides: [u16; 3], sinks: usize, digits: &[usize]) -> Option<Job> {
        let cells = room.cells();
        let (sinks, blocks) = digits[3..].split_at(sinks);
        if !blocks.is_sorted_by(|a, b| a % cells < b % cells) {
            return None;
        }
        let port = |digit: &usize, ports: &[(u8, u8)]| {
            let (kind, facing) = ports[digit / cells];
            let at = position(room, digit % cells);
            Port { at, kind, facing }
        };
        let sinks: Vec<_> = sinks.iter().map(|sink| port(sink, self.sinks)).collect();
        let mut job = default_job(sides, &sinks);
        job.source = port(&digits[2], self.sources);
        for digit in blocks {
            let (kind, facing) = self.blocks[digit / cells];
            let mut block = block(0, position(room, digit % cells), kind);
            block.facing = facing;
            job.blocks.push(block);
        }
        let [horizontal, stair, support] = self.costs[digits[0]];
        job.config = Config {
            horizontal,
            stair,
            support,
            ..job.config
        };
        if let Some(record) = digits[1].checked_sub(1) {
            let at = position(room, record % cells);
            list(&mut job, self.lists[record / cells]).push(at);
        }
        Some(job)
    }
}

fn list(job: &mut Job, which: usize) -> &mut Vec<[u16; 3]> {
    match which {
        CONDUCTORS => &mut job.conductors,
        CLEARANCES => &mut job.clearances,
        TERMINALS => &mut job.terminals,
        _ => &mut job.reserved,
    }
}

/// Nothing but Air in a room.
pub const AIR: &[u8] = &[kind::AIR];

/// A Wire port of any horizontal facing or none.
pub const FACINGS: &[(u8, u8)] = &[
    (port::WIRE, facing::NONE),
    (port::WIRE, facing::NORTH),
    (port::WIRE, facing::EAST),
    (port::WIRE, facing::SOUTH),
    (port::WIRE, facing::WEST),
];
