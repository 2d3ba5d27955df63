//! Why wasn't it reached? The case, what is judged of it, and a plain flood: docs/MORE-RULES.md, Why there is no route.

use crate::Refusal;
use crate::room::{DOWN, MOST_CELLS, Room, kind, kind_at, moves};
use crate::search::{Search, SearchAnswer};

/// So many moves a cell has.
pub const MOVES: usize = 12;

/// What is told of a move.
pub mod reason {
    pub const ALLOWED: u8 = 0;
    pub const OUTSIDE: u8 = 1;
    pub const TAKEN: u8 = 2;
    pub const BAD_SUPPORT: u8 = 3;
}

/// A search of which the reason is asked, too. Nothing is promised about its values: `judge` decides.
#[derive(Clone, Debug, Eq, PartialEq)]
pub struct Why {
    pub search: Search,
    /// The length of the lent output for the cells reached, a byte each.
    pub reached: u32,
    /// The length of the lent output for their moves, twelve bytes a cell.
    pub walls: u32,
}

/// A cell that is reached, and what is told of its twelve moves.
#[derive(Clone, Copy, Debug, Eq, PartialEq)]
pub struct Told {
    pub cell: u16,
    pub moves: [u8; MOVES],
}

#[derive(Clone, Debug, Eq, PartialEq)]
pub struct WhyAnswer {
    /// What the search itself answers.
    pub search: SearchAnswer,
    /// The cells reached, ascending. None is told but on number 11.
    pub reached: Vec<Told>,
}

impl WhyAnswer {
    pub fn number(&self) -> u8 {
        self.search.number()
    }

    /// What the output for the cells reached begins with, in a room of so many cells; zeros are behind it.
    pub fn reached_bytes(&self, cells: usize) -> Vec<u8> {
        let mut bytes = vec![0; cells];
        for told in &self.reached {
            bytes[usize::from(told.cell)] = 1;
        }
        bytes
    }

    /// What the output for the moves begins with, in a room of so many cells; zeros are behind it.
    pub fn walls_bytes(&self, cells: usize) -> Vec<u8> {
        let mut bytes = vec![0; MOVES * cells];
        for told in &self.reached {
            let first = MOVES * usize::from(told.cell);
            bytes[first..first + MOVES].copy_from_slice(&told.moves);
        }
        bytes
    }
}

impl Why {
    /// The search with outputs that just suffice.
    pub fn of(search: Search) -> Self {
        let cells: u32 = search.sides.iter().map(|side| u32::from(*side)).product();
        Self {
            reached: cells,
            walls: MOVES as u32 * cells,
            search,
        }
    }

    /// The numbers judged before the search starts: those of the search in their order, 6 for either output as well.
    pub fn judge(&self) -> Result<Room, Refusal> {
        let judged = self.search.judge();
        match judged {
            Err(Refusal { number: 2 | 3, .. }) => judged,
            _ if self.is_too_short() => Err(Refusal::bare(6)),
            _ => judged,
        }
    }

    fn is_too_short(&self) -> bool {
        let cells = Room::new(self.search.sides, MOST_CELLS).map_or(0, |room| room.cells());
        (self.reached as usize) < cells || (self.walls as usize) < MOVES * cells
    }

    pub fn plain_answer(&self) -> WhyAnswer {
        match self.judge() {
            Err(refusal) => WhyAnswer {
                search: SearchAnswer::Refused(refusal),
                reached: Vec::new(),
            },
            Ok(room) => self.explained(&room, self.search.plain_answer()),
        }
    }

    /// The answer to judged input whose search has this answer.
    pub fn explained(&self, room: &Room, search: SearchAnswer) -> WhyAnswer {
        let reached = match search.number() {
            11 => self.flood(room),
            _ => Vec::new(),
        };
        WhyAnswer { search, reached }
    }

    /// The cells to which lawful steps lead from the start, ascending, each with its moves. Costs, node limit and queue have no
    /// part in it.
    pub fn flood(&self, room: &Room) -> Vec<Told> {
        let mut met = vec![false; room.cells()];
        let mut waiting = vec![self.search.start as usize];
        met[self.search.start as usize] = true;
        while let Some(cell) = waiting.pop() {
            for next in moves().filter_map(|offset| room.next(cell, offset)) {
                if self.reason(room, Some(next)) == reason::ALLOWED && !met[next] {
                    met[next] = true;
                    waiting.push(next);
                }
            }
        }
        let reached = (0..room.cells()).filter(|cell| met[*cell]);
        reached.map(|cell| self.told(room, cell)).collect()
    }

    fn told(&self, room: &Room, cell: usize) -> Told {
        let mut told = Told {
            cell: cell as u16,
            moves: [reason::ALLOWED; MOVES],
        };
        for (place, offset) in told.moves.iter_mut().zip(moves()) {
            *place = self.reason(room, room.next(cell, offset));
        }
        told
    }

    /// The least reason that stands against entering a cell, none being outside; 0 if none does.
    fn reason(&self, room: &Room, next: Option<usize>) -> u8 {
        let Some(next) = next else {
            return reason::OUTSIDE;
        };
        let kinds = &self.search.kinds;
        let is_end = [self.search.start, self.search.goal].contains(&(next as u32));
        match kinds[next] {
            kind::AIR => {}
            kind::REDSTONE_WIRE if is_end => {}
            _ => return reason::TAKEN,
        }
        match kind_at(kinds, room.next(next, DOWN)) {
            kind::AIR | kind::SOLID | kind::TRANSPARENT | kind::REDSTONE_BLOCK => reason::ALLOWED,
            _ => reason::BAD_SUPPORT,
        }
    }
}
