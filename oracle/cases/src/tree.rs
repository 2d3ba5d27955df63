//! The tree of one net: numbers 6 to 9, and the plain router that joins sink after sink to the tree.

use std::collections::BTreeSet;

use crate::Refusal;
use crate::blocked::blocked_at_outset;
use crate::conflict::{ConflictTest, Stair, StairRule, stairs};
use crate::reading::{Other, Reading};
use crate::repeaters::{Laid, place_repeaters};
use crate::room::{MOST_CELLS, Place, Room, kind, port, sideways};
use crate::search::{End, Question, Searched, cells16};
use crate::sheet::{Job, Port, Sheet, TreeAnswer};

/// Searches that one goal gets at most.
const ATTEMPTS: usize = 64;

/// What blocked Air is in a search, as docs/MORE-RULES.md has it. The caller of a tree chooses; the sheet doesn't carry it.
#[derive(Clone, Copy, Debug, Eq, PartialEq)]
pub enum Mode {
    /// Solid, as a support too: so the published Rust has it.
    Published,
    /// Neither entered nor used as a support.
    Strict,
}

/// Room for a tree: the queue's places and the branch buffer's cells.
#[derive(Clone, Copy, Debug, Eq, PartialEq)]
pub struct Limits {
    pub queue: usize,
    pub branch: usize,
}

impl Limits {
    /// As the Rust has it: neither 13 nor 15 can come.
    pub const NONE: Self = Self {
        queue: usize::MAX,
        branch: usize::MAX,
    };
}

/// What program `route` has: at most 4,096 cells, a queue of 12,288 places, a branch buffer of 16,384 cells.
pub const ROUTE_MOST_CELLS: usize = 4_096;
pub const ROUTE_LIMITS: Limits = Limits {
    queue: 12_288,
    branch: 16_384,
};

impl Sheet {
    /// The sheet as program `route` runs it.
    pub fn of_route(bytes: Vec<u8>) -> Self {
        Self {
            queue: ROUTE_LIMITS.queue as u32,
            branch: ROUTE_LIMITS.branch as u32,
            lent: ROUTE_MOST_CELLS as u32,
            bytes,
        }
    }

    pub fn limits(&self) -> Limits {
        Limits {
            queue: self.queue as usize,
            branch: self.branch as usize,
        }
    }

    /// Numbers 1 to 6, none of which the Rust has. `most_cells` is 16,384, or 4,096 for program `route`.
    pub fn judge(&self, most_cells: usize) -> Result<(Job, Room), Refusal> {
        let job = Job::read(&self.bytes)?;
        let room = job.judge(most_cells)?;
        if (self.lent as usize) < room.cells() || self.queue == 0 {
            return Err(Refusal::bare(6));
        }
        Ok((job, room))
    }

    pub fn plain_answer(&self) -> TreeAnswer {
        self.plain_answer_within(MOST_CELLS)
    }

    pub fn plain_answer_within(&self, most_cells: usize) -> TreeAnswer {
        self.answer_by(most_cells, Mode::Published)
    }

    pub fn plain_answer_in(&self, mode: Mode) -> TreeAnswer {
        self.answer_by(MOST_CELLS, mode)
    }

    fn answer_by(&self, most_cells: usize, mode: Mode) -> TreeAnswer {
        let judged = self.judge(most_cells);
        judged
            .and_then(|(job, room)| route_in_mode(&job, &room, self.limits(), mode))
            .map_or_else(TreeAnswer::Refused, |net| net.answer())
    }
}

/// The plain router's answer to a judged job.
pub fn plain_answer(job: &Job, room: &Room, limits: Limits) -> TreeAnswer {
    route_net_tree(job, room, limits).map_or_else(TreeAnswer::Refused, |net| net.answer())
}

/// A routed net, and how much room it took.
#[derive(Clone, Debug, Eq, PartialEq)]
pub struct Net {
    /// In sheet order.
    pub branches: Vec<Vec<usize>>,
    pub occupied: BTreeSet<usize>,
    pub repeaters: BTreeSet<usize>,
    /// The most entries that waited at once in any of its searches.
    pub most_waiting: usize,
}

impl Net {
    pub fn answer(&self) -> TreeAnswer {
        TreeAnswer::Tree {
            branches: self.branches.iter().map(|cells| cells16(cells)).collect(),
            occupied: self.occupied.len() as u32,
            repeaters: self.repeaters.iter().map(|cell| *cell as u16).collect(),
        }
    }

    pub fn branch_cells(&self) -> usize {
        self.branches.iter().map(Vec::len).sum()
    }
}

/// Numbers 7, 8, 9, then 13 or 14 and 15 sink by sink, or the net.
pub fn route_net_tree(job: &Job, room: &Room, limits: Limits) -> Result<Net, Refusal> {
    route_in_mode(job, room, limits, Mode::Published)
}

/// The same in a mode.
pub fn route_in_mode(job: &Job, room: &Room, limits: Limits, mode: Mode) -> Result<Net, Refusal> {
    route(job, room, limits, mode, Reading::PUBLISHED)
}

/// The same with an open point read otherwise.
pub fn route_as_read(
    job: &Job,
    room: &Room,
    limits: Limits,
    reading: Reading,
) -> Result<Net, Refusal> {
    route(job, room, limits, Mode::Published, reading)
}

fn route(
    job: &Job,
    room: &Room,
    limits: Limits,
    mode: Mode,
    reading: Reading,
) -> Result<Net, Refusal> {
    if let Some(cell) = overlap(job, room) {
        return Err(Refusal::new(7, cell as u32));
    }
    let ends = realize(job, room)?;
    if reading.is(Other::SourceApproachJudged) && source_approach(job, room).is_none() {
        return Err(Refusal::new(9, 0));
    }
    let mut tree = Tree::new(job, room, &ends, limits, mode, reading);
    let order = sink_order(room, &ends);
    tree.join_all(&ends, &order)?;
    let laid = Laid {
        job,
        room,
        ends: &ends,
        branches: &tree.branches,
        order: &order,
        reading,
    };
    let repeaters = place_repeaters(&laid);
    Ok(Net {
        branches: tree.branches,
        occupied: tree.occupied,
        repeaters,
        most_waiting: tree.most_waiting,
    })
}

/// The sink that a tree stops at with 13 or 14, and the tree as it is at that sink's turn.
pub struct Stopped {
    pub refusal: Refusal,
    /// The sink's index in the sheet.
    pub sink: usize,
    pub ends: Ends,
    /// The unblocked room.
    pub kinds: Vec<u8>,
    pub blocked: Vec<bool>,
    pub joinable: BTreeSet<usize>,
    /// The branches so far, in sheet order; empty for sinks whose turn has not come.
    pub branches: Vec<Vec<usize>>,
}

impl Stopped {
    pub fn approach(&self) -> usize {
        self.ends.sinks[self.sink].approach
    }
}

/// Where the tree of a judged job stops, if it does with 13 or 14.
pub fn stopped_in_mode(job: &Job, room: &Room, limits: Limits, mode: Mode) -> Option<Stopped> {
    if overlap(job, room).is_some() {
        return None;
    }
    let ends = realize(job, room).ok()?;
    let mut tree = Tree::new(job, room, &ends, limits, mode, Reading::PUBLISHED);
    let refusal = tree.join_all(&ends, &sink_order(room, &ends)).err()?;
    matches!(refusal.number, 13 | 14).then_some(Stopped {
        refusal,
        sink: tree.now,
        ends,
        kinds: tree.kinds,
        blocked: tree.blocked,
        joinable: tree.joinable,
        branches: tree.branches,
    })
}

/// The cell of the repeat: of all blocks whose cell a lower node or an earlier record of the same node holds, the one of
/// least node, then least cell.
pub fn overlap(job: &Job, room: &Room) -> Option<usize> {
    let blocks = job.blocks.iter();
    let mut blocks: Vec<_> = blocks.map(|b| (b.node, cell(room, b.at))).collect();
    blocks.sort_by_key(|(node, _)| *node); // stable: records of one node keep their order
    let mut held = BTreeSet::new();
    let repeats = blocks.into_iter().filter(|(_, cell)| !held.insert(*cell));
    repeats.min().map(|(_, cell)| cell)
}

/// The cell of a position that was judged to lie in the room.
fn cell(room: &Room, at: [u16; 3]) -> usize {
    room.cell(Place::from(at)).expect("a judged position")
}

/// The kinds of the unblocked room.
fn kinds(job: &Job, room: &Room) -> Vec<u8> {
    let mut kinds = vec![kind::AIR; room.cells()];
    for block in &job.blocks {
        kinds[cell(room, block.at)] = block.kind;
    }
    kinds
}

/// The cells where a net begins and ends. A source has no approach.
#[derive(Clone, Debug, Eq, PartialEq)]
pub struct Ends {
    pub source: usize,
    pub sinks: Vec<SinkEnds>,
}

#[derive(Clone, Copy, Debug, Eq, PartialEq)]
pub struct SinkEnds {
    pub terminal: usize,
    pub approach: usize,
}

impl Ends {
    /// Every terminal and approach of this net.
    pub fn own(&self) -> BTreeSet<usize> {
        let sinks = self.sinks.iter();
        sinks
            .flat_map(|sink| [sink.terminal, sink.approach])
            .chain([self.source])
            .collect()
    }
}

/// All of 8, source first and sinks in sheet order, then all of 9.
pub fn realize(job: &Job, room: &Room) -> Result<Ends, Refusal> {
    let source = terminal(&job.source).ok_or(Refusal::new(8, 0))?;
    let mut terminals = Vec::new();
    for (sink, number) in job.sinks.iter().zip(1..) {
        terminals.push(terminal(&sink.port).ok_or(Refusal::new(8, number))?);
    }
    let inside = |place, number| room.cell(place).ok_or(Refusal::new(9, number));
    let source = inside(source, 0)?;
    let mut sinks = Vec::new();
    for ((sink, place), number) in job.sinks.iter().zip(terminals).zip(1..) {
        sinks.push(SinkEnds {
            terminal: inside(place, number)?,
            approach: inside(approach(&sink.port, place), number)?,
        });
    }
    Ok(Ends { source, sinks })
}

/// Wire: the position. BlockPower: the position plus its facing, none if that is not horizontal.
fn terminal(port: &Port) -> Option<Place> {
    let at = Place::from(port.at);
    match port.kind {
        port::WIRE => Some(at),
        _ => sideways(port.facing).map(|offset| at.plus(offset)),
    }
}

/// The terminal plus a horizontal facing, else the terminal itself.
fn approach(sink: &Port, terminal: Place) -> Place {
    sideways(sink.facing).map_or(terminal, |offset| terminal.plus(offset))
}

/// The approach that a source would have if it had one; none outside.
pub fn source_approach(job: &Job, room: &Room) -> Option<usize> {
    room.cell(approach(&job.source, terminal(&job.source)?))
}

/// By distance from the source terminal to the approach, ties in sheet order.
pub fn sink_order(room: &Room, ends: &Ends) -> Vec<usize> {
    let mut order: Vec<_> = (0..ends.sinks.len()).collect();
    order.sort_by_key(|index| room.distance(ends.source, ends.sinks[*index].approach));
    order
}

/// The tree while it grows.
struct Tree<'a> {
    job: &'a Job,
    room: &'a Room,
    limits: Limits,
    mode: Mode,
    reading: Reading,
    /// Cells of this net that an own clearance leaves open.
    stay_open: BTreeSet<usize>,
    /// The unblocked room.
    kinds: Vec<u8>,
    blocked: Vec<bool>,
    joinable: BTreeSet<usize>,
    occupied: BTreeSet<usize>,
    most_waiting: usize,
    /// The index of the sink whose turn it is.
    now: usize,
    /// The branches so far, in sheet order.
    branches: Vec<Vec<usize>>,
}

impl<'a> Tree<'a> {
    fn new(
        job: &'a Job,
        room: &'a Room,
        ends: &Ends,
        limits: Limits,
        mode: Mode,
        reading: Reading,
    ) -> Self {
        let stay_open = reading.is(Other::EndsStayOpen).then(|| ends.own());
        Self {
            job,
            room,
            limits,
            mode,
            reading,
            stay_open: stay_open.unwrap_or_default(),
            kinds: kinds(job, room),
            blocked: blocked_at_outset(job, room, ends, reading),
            joinable: BTreeSet::from([ends.source]),
            occupied: BTreeSet::from([ends.source]),
            most_waiting: 0,
            now: 0,
            branches: vec![Vec::new(); ends.sinks.len()],
        }
    }

    /// Joins sink after sink in this order.
    fn join_all(&mut self, ends: &Ends, order: &[usize]) -> Result<(), Refusal> {
        let mut used = 0;
        for &index in order {
            self.now = index;
            let branch = self.join(ends.sinks[index])?;
            used += branch.len();
            if used > self.limits.branch {
                return Err(Refusal::new(15, index as u32 + 1));
            }
            self.branches[index] = branch;
        }
        Ok(())
    }

    /// Joins one sink to the tree and answers its branch, from the tree to the terminal.
    fn join(&mut self, sink: SinkEnds) -> Result<Vec<usize>, Refusal> {
        let mut branch = self.cheapest_route(sink.approach)?;
        branch.reverse();
        if sink.terminal != sink.approach {
            branch.push(sink.terminal);
        }
        let mut laid = branch[..branch.len() - 1].to_vec();
        if self.reading.is(Other::TerminalNeverJoinable) {
            laid.retain(|cell| *cell != sink.terminal);
        }
        self.joinable.extend(laid);
        self.occupied.extend(&branch);
        for Stair { clearance, .. } in stairs(self.room, &branch) {
            self.blocked[clearance] = !self.stay_open.contains(&clearance);
        }
        Ok(branch)
    }

    /// The first strictly cheapest route from the approach to a joinable cell, in number order.
    fn cheapest_route(&mut self, approach: usize) -> Result<Vec<usize>, Refusal> {
        let mut best: Option<(u64, Vec<usize>)> = None;
        let mut blocked = self.blocked.clone();
        for goal in self.joinable.clone() {
            if !self.reading.is(Other::ConflictStays) {
                blocked.clone_from(&self.blocked);
            }
            let Some((cost, path)) = self.attempts(&mut blocked, approach, goal)? else {
                continue;
            };
            if best.as_ref().is_none_or(|(least, _)| cost < *least) {
                best = Some((cost, path));
            }
        }
        best.map(|(_, path)| path)
            .ok_or(Refusal::new(14, approach as u32))
    }

    /// The searches of one goal. A search that gave no route ends the goal; 13 ends the tree. Conflicts become blocked.
    fn attempts(
        &mut self,
        blocked: &mut [bool],
        start: usize,
        goal: usize,
    ) -> Result<Option<(u64, Vec<usize>)>, Refusal> {
        let attempts = ATTEMPTS - usize::from(self.reading.is(Other::SixtyThreeSearches));
        for _ in 0..attempts {
            let searched = self.search(blocked, start, goal);
            self.most_waiting = self.most_waiting.max(searched.most_waiting);
            let (path, cost) = match searched.end {
                End::Route { path, cost } => (path, cost),
                End::QueueFull => return Err(Refusal::new(13, searched.expanded)),
                _ => return Ok(None),
            };
            match self.conflict(&path) {
                None => return Ok(Some((cost, path))),
                Some(cell) if cell == start || cell == goal || blocked[cell] => return Ok(None),
                Some(cell) => blocked[cell] = true,
            }
        }
        Ok(None)
    }

    /// One search, in which cells are blocked.
    fn search(&self, blocked: &[bool], start: usize, goal: usize) -> Searched {
        let (kinds, barred) = match self.mode {
            Mode::Published => (self.walled(blocked, start, goal), [].as_slice()),
            Mode::Strict => (self.kinds.clone(), blocked),
        };
        let question = Question {
            room: self.room,
            kinds: &kinds,
            start,
            goal,
            config: &self.job.config,
            places: self.limits.queue,
            barred,
        };
        question.search()
    }

    /// The room in which each blocked Air cell other than the search's start and goal counts as Solid, as a support too.
    fn walled(&self, blocked: &[bool], start: usize, goal: usize) -> Vec<u8> {
        let mut kinds = self.kinds.clone();
        let turns = |kind| kind == kind::AIR || self.reading.is(Other::BlockedBears);
        for cell in 0..kinds.len() {
            if blocked[cell] && cell != start && cell != goal && turns(kinds[cell]) {
                kinds[cell] = kind::SOLID;
            }
        }
        kinds
    }

    /// The first conflict of a path with the joinable cells, in the unblocked room.
    fn conflict(&self, path: &[usize]) -> Option<usize> {
        let joinable = match self.reading.is(Other::ConflictWithOccupied) {
            true => &self.occupied,
            false => &self.joinable,
        };
        let test = ConflictTest {
            room: self.room,
            kinds: &self.kinds,
            rule: StairRule::Shorter,
            reading: self.reading,
        };
        test.conflict(joinable, path)
    }
}
