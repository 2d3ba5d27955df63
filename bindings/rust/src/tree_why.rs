//! Why a tree couldn't reach a sink: which one, what may be said of it, and of one that is shut in where wire gets to.

use crate::answer::{Refusal, Tree};
use crate::why::{Reason, Wall, Walled};

/// The answer of [`crate::why_tree`].
#[derive(Clone, Debug, Eq, PartialEq)]
pub enum TreeWhy {
    /// Every sink is reached.
    Tree(Tree),
    /// 13 or 14: a sink wasn't.
    Unreached(Unreached),
    /// Any other number.
    Refused(Refusal),
}

/// The sink at whose turn the tree stopped.
#[derive(Clone, Debug, Eq, PartialEq)]
pub struct Unreached {
    /// Its place in the sheet, from 1.
    pub sink: u32,
    /// 13 or 14, with its detail.
    pub refusal: Refusal,
    pub verdict: Verdict,
}

/// What may be said of a sink that wasn't reached. Only the first two say that it can't be.
#[derive(Clone, Debug, Eq, PartialEq)]
pub enum Verdict {
    /// 1: its approach holds a block, so that it can't be reached, at any costs.
    ApproachTaken,
    /// 2: this tree can't reach it, at any costs, limits and attempts; and this is the reason.
    ShutIn(ShutIn),
    /// 3: wire can get to the tree, but each route tried was in conflict with it. There may be another way.
    Conflicts,
    /// 4: the node limit or the queue was too small, or the costs are below 10 and 20. Nothing is known.
    CutShort,
}

impl Verdict {
    /// The verdict of a number; a sink that is shut in has a reason. The router says no other number.
    pub(crate) fn of(number: u64, shut_in: impl FnOnce() -> ShutIn) -> Self {
        match number {
            1 => Self::ApproachTaken,
            2 => Self::ShutIn(shut_in()),
            3 => Self::Conflicts,
            4 => Self::CutShort,
            _ => unreachable!("the router has no verdict {number}"),
        }
    }

    pub fn number(&self) -> u8 {
        match self {
            Self::ApproachTaken => 1,
            Self::ShutIn(_) => 2,
            Self::Conflicts => 3,
            Self::CutShort => 4,
        }
    }
}

/// Why a cell is blocked. Each is a bit of [`ShutIn::causes`].
#[derive(Clone, Copy, Debug, Eq, Ord, PartialEq, PartialOrd)]
#[repr(u8)]
pub enum Cause {
    /// It holds another net's conductor.
    OtherConductor = 1,
    /// It lies beside another net's conductor.
    OtherKeepout = 2,
    OtherClearance = 4,
    OtherTerminal = 8,
    Reserved = 16,
    /// It lies beside a live block of the room.
    BlockKeepout = 32,
    /// It is the headroom of a stair of this net's branches so far.
    OwnClearance = 64,
}

impl Cause {
    pub const ALL: [Self; 7] = [
        Self::OtherConductor,
        Self::OtherKeepout,
        Self::OtherClearance,
        Self::OtherTerminal,
        Self::Reserved,
        Self::BlockKeepout,
        Self::OwnClearance,
    ];
}

/// The cells that wire gets to from the sink's approach, where any cell that it could join may be the goal. They lack all of those, and no
/// step leaves them.
#[derive(Clone, Debug, Eq, PartialEq)]
pub struct ShutIn {
    cells: Walled,
    /// A byte for each cell.
    causes: Vec<u8>,
}

impl ShutIn {
    pub(crate) fn new(cells: Walled, causes: &[u8]) -> Self {
        Self {
            cells,
            causes: causes.to_vec(),
        }
    }

    /// Whether a cell is reached.
    pub fn is_reached(&self, cell: usize) -> bool {
        self.cells.is_reached(cell)
    }

    /// The cells reached, ascending.
    pub fn reached(&self) -> impl Iterator<Item = usize> {
        self.cells.reached()
    }

    /// What stands against a move of a cell that is reached; none if it is allowed, and for any other cell or move.
    pub fn reason(&self, cell: usize, step: usize) -> Option<Reason> {
        self.cells.reason(cell, step)
    }

    /// Each move of a cell that is reached and that is not allowed, by cell and then by move.
    pub fn walls(&self) -> impl Iterator<Item = Wall> {
        self.cells.walls()
    }

    /// Why a cell is blocked at the sink's turn; none for a cell that isn't.
    pub fn causes(&self, cell: usize) -> impl Iterator<Item = Cause> {
        let bits = self.causes.get(cell).copied().unwrap_or(0);
        Cause::ALL.into_iter().filter(move |cause| bits & *cause as u8 != 0)
    }
}
