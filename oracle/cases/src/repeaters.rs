//! Where repeaters stand in a routed tree: first the runs of all sinks, then the tails, both in sheet order.

use std::collections::{BTreeMap, BTreeSet, VecDeque};

use crate::reading::{Other, Reading};
use crate::room::{Room, port};
use crate::sheet::{Job, Sink};
use crate::tree::{Ends, realize, sink_order, source_approach};

/// A tree whose branches are laid.
pub struct Laid<'a> {
    pub job: &'a Job,
    pub room: &'a Room,
    pub ends: &'a Ends,
    /// In sheet order.
    pub branches: &'a [Vec<usize>],
    /// The sinks in the order in which they were searched.
    pub order: &'a [usize],
    pub reading: Reading,
}

impl Laid<'_> {
    fn reads(&self, other: Other) -> bool {
        self.reading.is(other)
    }

    /// The branches in the order in which they were searched.
    fn searched(&self) -> impl Iterator<Item = &[usize]> {
        self.order
            .iter()
            .map(|sink| self.branches[*sink].as_slice())
    }

    /// The sinks in the order in which they are planned: as in the sheet, unless that is read otherwise.
    fn planned(&self, as_searched: Other) -> Vec<usize> {
        match self.reads(as_searched) {
            true => self.order.to_vec(),
            false => (0..self.ends.sinks.len()).collect(),
        }
    }
}

/// The repeaters of a judged job whose ends are good and whose branches are given, at its limits.
pub fn plan(job: &Job, room: &Room, branches: &[Vec<usize>]) -> BTreeSet<usize> {
    let ends = realize(job, room).expect("good ends");
    place_repeaters(&Laid {
        job,
        room,
        ends: &ends,
        branches,
        order: &sink_order(room, &ends),
        reading: Reading::PUBLISHED,
    })
}

/// The repeaters of a tree.
pub fn place_repeaters(laid: &Laid) -> BTreeSet<usize> {
    let tree = Wires::new(laid);
    let mut repeaters = BTreeSet::new();
    for sink in laid.planned(Other::RunsAsSearched) {
        tree.runs(&tree.path_to(sink), &mut repeaters);
        if laid.reads(Other::TailAfterRun) {
            tree.tail_of(sink, &mut repeaters);
        }
    }
    if !laid.reads(Other::TailAfterRun) {
        for sink in laid.planned(Other::TailsAsSearched) {
            tree.tail_of(sink, &mut repeaters);
        }
    }
    repeaters
}

/// The tree's cells: their neighbours over all branches, and the way back to the source.
struct Wires<'a> {
    laid: &'a Laid<'a>,
    /// Where no repeater may stand: the net's terminals and approaches.
    own: BTreeSet<usize>,
    neighbours: BTreeMap<usize, BTreeSet<usize>>,
    before: BTreeMap<usize, usize>,
}

impl<'a> Wires<'a> {
    fn new(laid: &'a Laid) -> Self {
        let neighbours = neighbours(laid.branches.iter().map(Vec::as_slice));
        let mut own = laid.ends.own();
        if laid.reads(Other::SourceApproachForbidden) {
            own.extend(source_approach(laid.job, laid.room));
        }
        Self {
            laid,
            own,
            before: breadth_first(laid.ends.source, &neighbours),
            neighbours,
        }
    }

    /// The path from the source to a sink's terminal.
    fn path_to(&self, sink: usize) -> Vec<usize> {
        if self.laid.reads(Other::PathAlongBranches) {
            return self.along_branches(sink);
        }
        let mut path = vec![self.laid.ends.sinks[sink].terminal];
        while let Some(before) = self.before.get(&path[path.len() - 1]) {
            path.push(*before);
        }
        path.reverse();
        path
    }

    /// The sink's branch, and before it, again and again, the part that leads to its first cell of the branch that
    /// brought that cell.
    fn along_branches(&self, sink: usize) -> Vec<usize> {
        let mut path = self.laid.branches[sink].clone();
        while path[0] != self.laid.ends.source {
            let bringing = self.laid.searched().find_map(|branch| {
                let place = branch.iter().position(|cell| *cell == path[0])?;
                (place > 0).then(|| branch[..place].to_vec())
            });
            path.splice(
                0..0,
                bringing.expect("a branch brought each cell of the tree"),
            );
        }
        path
    }

    /// How many neighbours a cell of the tree has.
    fn degree(&self, cell: usize) -> usize {
        let holds = |branch: &&[usize]| branch.contains(&cell);
        if self.laid.reads(Other::NeighboursOfOneBranch) {
            return neighbours(self.laid.searched().find(holds).into_iter())[&cell].len();
        }
        if self.laid.reads(Other::NeighboursByStep) {
            let steps = self.laid.searched().flat_map(|branch| branch.windows(2));
            return steps.filter(|pair| pair.contains(&cell)).count();
        }
        self.neighbours[&cell].len()
    }

    /// A repeater may stand here: off this net's terminals and approaches, with a cell before and after on the path, two
    /// tree neighbours, and equal flat facing in and out.
    fn fits(&self, path: &[usize], index: usize) -> bool {
        !self.own.contains(&path[index]) && self.fits_between(path, index)
    }

    /// The same, on this net's terminals and approaches too.
    fn fits_between(&self, path: &[usize], index: usize) -> bool {
        0 < index
            && index + 1 < path.len()
            && self.degree(path[index]) == 2
            && self.straight(path[index - 1], path[index], path[index + 1])
    }

    fn straight(&self, before: usize, cell: usize, after: usize) -> bool {
        let [a, b, c] = [before, cell, after].map(|cell| self.laid.room.place(cell));
        a.y == b.y && b.y == c.y && b.x - a.x == c.x - b.x && b.z - a.z == c.z - b.z
    }

    /// A repeater met is a reset; where one is due and fits, it becomes the reset and the walk resumes after it.
    fn runs(&self, path: &[usize], repeaters: &mut BTreeSet<usize>) {
        let mut reset = 0;
        let mut index = 1;
        while index < path.len() {
            if repeaters.contains(&path[index]) {
                reset = index;
            } else if let Some(fit) = self.due(path, reset, index) {
                repeaters.insert(path[fit]);
                reset = fit;
                index = fit;
            }
            index += 1;
        }
    }

    /// At a cell farther past the reset than the run limit: the latest cell after that reset, up to and including this one, that
    /// fits.
    fn due(&self, path: &[usize], reset: usize, index: usize) -> Option<usize> {
        if index - reset <= usize::from(self.laid.job.run) {
            return None;
        }
        (reset + 1..=index).rev().find(|fit| self.fits(path, *fit))
    }

    fn tail_of(&self, sink: usize, repeaters: &mut BTreeSet<usize>) {
        let Sink { port, tail } = self.laid.job.sinks[sink];
        if port.kind == port::WIRE {
            self.tail(&self.path_to(sink), tail.into(), repeaters);
        }
    }

    /// With more steps after the last repeater than the sink's tail limit: the earliest cell that fits among so many last ones before the
    /// end, with no repeater next to it on the path.
    fn tail(&self, path: &[usize], limit: usize, repeaters: &mut BTreeSet<usize>) {
        let is_repeater = |index: &usize| repeaters.contains(&path[*index]);
        let end = path.len() - 1;
        let reset = (0..=end).rev().find(is_repeater).unwrap_or(0);
        if end - reset <= limit {
            return;
        }
        let fits = match self.laid.reads(Other::TailOnOwnEnds) {
            true => Self::fits_between,
            false => Self::fits,
        };
        let fit = (end - limit..end).find(|index| {
            fits(self, path, *index) && !is_repeater(&(index - 1)) && !is_repeater(&(index + 1))
        });
        repeaters.extend(fit.map(|index| path[index]));
    }
}

/// The cell before each cell of a tree but the source, on the path from the source.
pub fn from_source(source: usize, branches: &[Vec<usize>]) -> BTreeMap<usize, usize> {
    breadth_first(source, &neighbours(branches.iter().map(Vec::as_slice)))
}

/// Each cell's neighbours along these branches.
fn neighbours<'a>(branches: impl Iterator<Item = &'a [usize]>) -> BTreeMap<usize, BTreeSet<usize>> {
    let mut neighbours: BTreeMap<usize, BTreeSet<usize>> = BTreeMap::new();
    for pair in branches.flat_map(|branch| branch.windows(2)) {
        neighbours.entry(pair[0]).or_default().insert(pair[1]);
        neighbours.entry(pair[1]).or_default().insert(pair[0]);
    }
    neighbours
}

/// The predecessor of each cell but the source, breadth first, neighbours in number order.
fn breadth_first(
    source: usize,
    neighbours: &BTreeMap<usize, BTreeSet<usize>>,
) -> BTreeMap<usize, usize> {
    let mut before = BTreeMap::new();
    let mut queue = VecDeque::from([source]);
    while let Some(cell) = queue.pop_front() {
        for next in neighbours.get(&cell).into_iter().flatten() {
            if *next != source && !before.contains_key(next) {
                before.insert(*next, cell);
                queue.push_back(*next);
            }
        }
    }
    before
}
