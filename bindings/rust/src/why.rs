//! Why a search finds no route: the cells it gets to, and what stands round them.

use crate::answer::{Nodes, Refusal, Route};
use crate::job::{Position, Room};

/// The answer of [`crate::why`].
#[derive(Clone, Debug, Eq, PartialEq)]
pub enum Why {
    /// There is a way.
    Route(Route),
    /// 11: there is none, at any costs, and this is the reason.
    WalledIn(WalledIn),
    /// Any other number. 12 and 13 say that the search was cut short: then no wall is named.
    Refused(Refusal),
}

/// The twelve moves in their order, as steps along x, y and z.
pub const MOVES: [[i8; 3]; 12] = [
    [1, -1, 0],
    [1, 0, 0],
    [1, 1, 0],
    [-1, -1, 0],
    [-1, 0, 0],
    [-1, 1, 0],
    [0, -1, 1],
    [0, 0, 1],
    [0, 1, 1],
    [0, -1, -1],
    [0, 0, -1],
    [0, 1, -1],
];

/// What stands against a move; where several hold, the least.
#[derive(Clone, Copy, Debug, Eq, Ord, PartialEq, PartialOrd)]
#[repr(u8)]
pub enum Reason {
    /// It leads out of the room.
    Outside = 1,
    /// The cell holds a block. RedstoneWire at the start or the goal doesn't count.
    Taken = 2,
    /// Right beneath the cell is none of Air, Solid, Transparent and RedstoneBlock.
    BadSupport = 3,
    /// The cell is blocked Air. Of a tree alone, as the next.
    KeptFree = 4,
    /// Right beneath the cell is blocked Air; in strict mode alone.
    SupportKeptFree = 5,
}

impl Reason {
    /// The reason of a byte; none for a move that is allowed. The router writes no other bytes.
    fn of(byte: u8) -> Option<Self> {
        match byte {
            0 => None,
            1 => Some(Self::Outside),
            2 => Some(Self::Taken),
            3 => Some(Self::BadSupport),
            4 => Some(Self::KeptFree),
            5 => Some(Self::SupportKeptFree),
            _ => unreachable!("the router has no reason {byte}"),
        }
    }
}

/// A move that is not allowed.
#[derive(Clone, Copy, Debug, Eq, PartialEq)]
pub struct Wall {
    /// The cell that is reached.
    pub from: usize,
    /// Which of its [`MOVES`].
    pub step: usize,
    /// The cell that it would enter; none outside.
    pub to: Option<usize>,
    pub reason: Reason,
}

/// The cells to which lawful steps lead from the start. They hold the start and lack the goal, and no lawful step leaves them.
#[derive(Clone, Debug, Eq, PartialEq)]
pub struct WalledIn {
    expanded: Nodes,
    cells: Walled,
}

impl WalledIn {
    pub(crate) fn new(expanded: Nodes, cells: Walled) -> Self {
        Self { expanded, cells }
    }

    /// How many cells the search expanded: the detail of number 11.
    pub fn expanded(&self) -> Nodes {
        self.expanded
    }

    /// Whether a cell is reached.
    pub fn is_reached(&self, cell: usize) -> bool {
        self.cells.is_reached(cell)
    }

    /// The cells reached, ascending.
    pub fn reached(&self) -> impl Iterator<Item = usize> {
        self.cells.reached()
    }

    /// What stands against a move of a cell that is reached; none if it is allowed, and for any other cell or move.
    pub fn reason(&self, cell: usize, step: usize) -> Option<Reason> {
        self.cells.reason(cell, step)
    }

    /// Each move of a cell that is reached and that is not allowed, by cell and then by move.
    pub fn walls(&self) -> impl Iterator<Item = Wall> {
        self.cells.walls()
    }
}

/// Cells that are reached, and what stands round them, as the router tells them.
#[derive(Clone, Debug, Eq, PartialEq)]
pub(crate) struct Walled {
    room: Room,
    /// A byte for each cell.
    reached: Vec<u8>,
    /// Twelve for each cell.
    walls: Vec<u8>,
}

impl Walled {
    /// Of a room that is not refused.
    pub(crate) fn new(room: Room, reached: &[u8], walls: &[u8]) -> Self {
        let cells = room.cells().expect("a room that is not refused");
        Self {
            room,
            reached: reached[..cells].to_vec(),
            walls: walls[..MOVES.len() * cells].to_vec(),
        }
    }

    pub(crate) fn is_reached(&self, cell: usize) -> bool {
        self.reached.get(cell) == Some(&1)
    }

    pub(crate) fn reached(&self) -> impl Iterator<Item = usize> {
        (0..self.reached.len()).filter(|cell| self.is_reached(*cell))
    }

    pub(crate) fn reason(&self, cell: usize, step: usize) -> Option<Reason> {
        if step >= MOVES.len() || !self.is_reached(cell) {
            return None;
        }
        Reason::of(self.walls[MOVES.len() * cell + step])
    }

    pub(crate) fn walls(&self) -> impl Iterator<Item = Wall> {
        let moves = |from| (0..MOVES.len()).map(move |step| (from, step));
        self.reached().flat_map(moves).filter_map(|(from, step)| {
            let reason = self.reason(from, step)?;
            let to = self.room.neighbour(from, step);
            Some(Wall { from, step, to, reason })
        })
    }
}

impl Room {
    /// The cell that one of the [`MOVES`] of a cell leads to; none outside, and none for a number that no cell of the room has.
    pub fn neighbour(self, cell: usize, step: usize) -> Option<usize> {
        let Position { x, y, z } = self.position(cell)?;
        let [dx, dy, dz] = MOVES[step];
        let along = |at: u16, by: i16, side: u16| at.checked_add_signed(by).filter(|at| *at < side);
        Some(self.cell(Position {
            x: along(x, dx.into(), self.wide)?,
            y: along(y, dy.into(), self.high)?,
            z: along(z, dz.into(), self.deep)?,
        }))
    }
}
