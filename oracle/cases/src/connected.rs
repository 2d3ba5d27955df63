//! The whole net hangs together: what is claimed of every tree that is answered, each claim tested by itself. Of the plain
//! router only the net's ends and the order of the sinks are taken.

use std::collections::{BTreeMap, BTreeSet, VecDeque};

use crate::room::{Room, moves};
use crate::sheet::Job;
use crate::tree::{Ends, realize, sink_order};

/// A tree as it was answered, and the net that it is of.
#[derive(Clone, Debug)]
pub struct Answered {
    pub room: Room,
    pub ends: Ends,
    /// The sinks in the order of their turns.
    pub turns: Vec<usize>,
    /// In sheet order.
    pub branches: Vec<Vec<usize>>,
    pub occupied: BTreeSet<usize>,
    pub repeaters: BTreeSet<usize>,
}

/// A claim: its words, and whether it holds of a tree.
pub struct Claim {
    pub words: &'static str,
    pub holds: fn(&Hanging) -> bool,
}

pub const CLAIMS: [Claim; 10] = [
    Claim {
        words: "a cell is occupied exactly if it is the source terminal or stands on a branch",
        holds: |net| net.tree.occupied == net.on_branches(),
    },
    Claim {
        words: "each occupied cell has a chain of branch steps back to the source",
        holds: |net| net.tree.occupied.iter().all(|cell| net.chained(*cell)),
    },
    Claim {
        words: "the path to each occupied cell goes from the source to it by branch steps, with at most V cells and none twice",
        holds: |net| net.tree.occupied.iter().all(|cell| net.path_leads(*cell)),
    },
    Claim {
        words: "so does the path to each sink's approach and terminal",
        holds: |net| net.tree.ends.own().iter().all(|cell| net.path_leads(*cell)),
    },
    Claim {
        words: "two cells that follow each other on a branch are one of the twelve moves apart",
        holds: |net| net.tree.branches.iter().all(|branch| net.goes(branch)),
    },
    Claim {
        words: "a branch begins at the source or on a branch of an earlier turn",
        holds: |net| (0..net.tree.turns.len()).all(|turn| net.begins(turn)),
    },
    Claim {
        words: "a branch ends at its sink's terminal",
        holds: |net| (0..net.tree.branches.len()).all(|sink| net.ends(sink)),
    },
    Claim {
        words: "a repeater stands on an occupied cell, no terminal and no approach of this net",
        holds: |net| net.tree.repeaters.iter().all(|cell| net.off_ends(*cell)),
    },
    Claim {
        words: "a repeater has exactly two tree neighbours, opposite each other on its level",
        holds: |net| net.tree.repeaters.iter().all(|cell| net.between(*cell)),
    },
    Claim {
        words: "a repeater's parent on the path is one step from it on its level",
        holds: |net| net.tree.repeaters.iter().all(|cell| net.faced(*cell)),
    },
];

impl Answered {
    /// The answer to a job, none if its ends are refused.
    pub fn new(
        job: &Job,
        room: &Room,
        branches: Vec<Vec<usize>>,
        occupied: BTreeSet<usize>,
        repeaters: BTreeSet<usize>,
    ) -> Option<Self> {
        let ends = realize(job, room).ok()?;
        Some(Self {
            room: *room,
            turns: sink_order(room, &ends),
            ends,
            branches,
            occupied,
            repeaters,
        })
    }

    /// The words of the claims that do not hold.
    pub fn broken(&self) -> Vec<&'static str> {
        let net = Hanging::new(self);
        let broken = CLAIMS.iter().filter(|claim| !(claim.holds)(&net));
        broken.map(|claim| claim.words).collect()
    }

    /// Whether branches meet again further on.
    pub fn has_ring(&self) -> bool {
        Hanging::new(self).steps() >= self.occupied.len()
    }
}

/// A tree with the branch steps at each cell, and the parent of each cell on the path from the source.
pub struct Hanging<'a> {
    tree: &'a Answered,
    neighbours: BTreeMap<usize, BTreeSet<usize>>,
    parents: BTreeMap<usize, usize>,
}

impl<'a> Hanging<'a> {
    fn new(tree: &'a Answered) -> Self {
        let mut neighbours: BTreeMap<usize, BTreeSet<usize>> = BTreeMap::new();
        for step in tree.branches.iter().flat_map(|branch| branch.windows(2)) {
            neighbours.entry(step[0]).or_default().insert(step[1]);
            neighbours.entry(step[1]).or_default().insert(step[0]);
        }
        let parents = parents(tree.ends.source, &neighbours);
        Self {
            tree,
            neighbours,
            parents,
        }
    }

    fn on_branches(&self) -> BTreeSet<usize> {
        let cells = self.tree.branches.iter().flatten().copied();
        cells.chain([self.tree.ends.source]).collect()
    }

    /// How many pairs of cells are next to each other on some branch.
    fn steps(&self) -> usize {
        self.neighbours.values().map(BTreeSet::len).sum::<usize>() / 2
    }

    fn beside(&self, a: usize, b: usize) -> bool {
        let next_to_each_other = |step: &[usize]| step == [a, b] || step == [b, a];
        let mut branches = self.tree.branches.iter();
        branches.any(|branch| branch.windows(2).any(next_to_each_other))
    }

    fn chained(&self, cell: usize) -> bool {
        cell == self.tree.ends.source || self.parents.contains_key(&cell)
    }

    /// The path from the source to a cell, by parents.
    fn path(&self, cell: usize) -> Vec<usize> {
        let before = |cell: &usize| self.parents.get(cell).copied();
        let mut path: Vec<usize> = std::iter::successors(Some(cell), before).collect();
        path.reverse();
        path
    }

    fn path_leads(&self, cell: usize) -> bool {
        let path = self.path(cell);
        let different: BTreeSet<usize> = path.iter().copied().collect();
        path[0] == self.tree.ends.source
            && path[path.len() - 1] == cell
            && path.windows(2).all(|step| self.beside(step[0], step[1]))
            && different.len() == path.len()
            && path.len() <= self.tree.room.cells()
    }

    fn goes(&self, branch: &[usize]) -> bool {
        let one_move =
            |step: &[usize]| moves().any(|by| self.tree.room.next(step[0], by) == Some(step[1]));
        branch.windows(2).all(one_move)
    }

    fn begins(&self, turn: usize) -> bool {
        let branch = |turn: usize| &self.tree.branches[self.tree.turns[turn]];
        let Some(first) = branch(turn).first() else {
            return false;
        };
        *first == self.tree.ends.source || (0..turn).any(|turn| branch(turn).contains(first))
    }

    fn ends(&self, sink: usize) -> bool {
        self.tree.branches[sink].last() == Some(&self.tree.ends.sinks[sink].terminal)
    }

    fn off_ends(&self, cell: usize) -> bool {
        self.tree.occupied.contains(&cell) && !self.tree.ends.own().contains(&cell)
    }

    fn between(&self, cell: usize) -> bool {
        let neighbours: Vec<usize> = self
            .neighbours
            .get(&cell)
            .into_iter()
            .flatten()
            .copied()
            .collect();
        let [a, b] = neighbours[..] else {
            return false;
        };
        let [a, v, b] = [a, cell, b].map(|cell| self.tree.room.place(cell));
        a.y == v.y && b.y == v.y && a.x + b.x == 2 * v.x && a.z + b.z == 2 * v.z
    }

    fn faced(&self, cell: usize) -> bool {
        let room = &self.tree.room;
        self.parents.get(&cell).is_some_and(|parent| {
            room.distance(*parent, cell) == 1 && room.place(*parent).y == room.place(cell).y
        })
    }
}

/// The parent of each cell but the source: breadth first, neighbours in number order.
fn parents(source: usize, neighbours: &BTreeMap<usize, BTreeSet<usize>>) -> BTreeMap<usize, usize> {
    let mut parents = BTreeMap::from([(source, source)]);
    let mut line = VecDeque::from([source]);
    while let Some(cell) = line.pop_front() {
        for next in neighbours.get(&cell).into_iter().flatten() {
            if !parents.contains_key(next) {
                parents.insert(*next, cell);
                line.push_back(*next);
            }
        }
    }
    parents.remove(&source);
    parents
}
