//! One route drawn into a room of kinds, and then its repeaters: the case, what is judged of it, and a plain drawing, as docs/MORE-RULES.md,
//! One route drawn, has them.

use crate::room::{DOWN, MOST_CELLS, Room, facing, kind};

/// A room, a path, and what the two functions ask beside these. They are asked in turn: the second over the room that the first has left.
/// Nothing is promised about the values: `judge` decides.
#[derive(Clone, Debug, Eq, PartialEq)]
pub struct Drawing {
    pub sides: [u16; 3],
    pub support: u32,
    pub run: u32,
    pub kinds: Vec<u8>,
    pub path: Vec<u32>,
    /// The lengths of the lent list: its cells, and their facings.
    pub cells: u32,
    pub facings: u32,
}

/// An entry of the list.
#[derive(Clone, Copy, Debug, Eq, PartialEq)]
pub struct Repeater {
    pub cell: u16,
    pub facing: u8,
}

#[derive(Clone, Debug, Eq, PartialEq)]
pub struct DrawingAnswer {
    /// The number of the drawing, 0 or 2 to 6, and the room's kinds after it.
    pub laid: u8,
    pub kinds: Vec<u8>,
    /// The same of the repeaters, and their list.
    pub listed: u8,
    pub repeatered: Vec<u8>,
    pub repeaters: Vec<Repeater>,
}

impl Drawing {
    /// Numbers 2, 6, 5, 4 in this order. `enough` says that what is lent is long enough, `known` that the support's kind is one.
    fn judge(&self, enough: bool, known: bool) -> Result<Room, u8> {
        let room = Room::new(self.sides, MOST_CELLS).ok_or(2)?;
        if self.kinds.len() != room.cells() || !enough {
            return Err(6);
        }
        if !known || self.kinds.iter().any(|known| *known > kind::LAST) {
            return Err(5);
        }
        let inside = |cell: &u32| (*cell as usize) < room.cells();
        self.path.iter().all(inside).then_some(room).ok_or(4)
    }

    /// Whether the route can be drawn, or the number that refuses it.
    pub fn judge_laying(&self) -> Result<Room, u8> {
        self.judge(true, self.support <= kind::LAST.into())
    }

    /// The same of the repeaters.
    pub fn judge_listing(&self) -> Result<Room, u8> {
        let enough = [self.cells, self.facings]
            .iter()
            .all(|lent| *lent as usize >= self.path.len());
        self.judge(enough, true)
    }

    /// The answer by the plain drawing.
    pub fn plain_answer(&self) -> DrawingAnswer {
        let laid = self.judge_laying();
        let mut kinds = self.kinds.clone();
        if let Ok(room) = &laid {
            self.lay(room, &mut kinds);
        }
        let listed = self.judge_listing();
        let mut repeatered = kinds.clone();
        let repeaters = match &listed {
            Ok(room) => self.list(room, &mut repeatered),
            Err(_) => Vec::new(),
        };
        DrawingAnswer {
            laid: laid.err().unwrap_or(0),
            kinds,
            listed: listed.err().unwrap_or(0),
            repeatered,
            repeaters,
        }
    }

    fn lay(&self, room: &Room, kinds: &mut [u8]) {
        let mut put = |cell: usize, what: u8| {
            if kinds[cell] == kind::AIR {
                kinds[cell] = what;
            }
        };
        for cell in self.path.iter().map(|cell| *cell as usize) {
            if let Some(below) = room.next(cell, DOWN) {
                put(below, self.support as u8);
            }
            put(cell, kind::REDSTONE_WIRE);
        }
    }

    fn list(&self, room: &Room, kinds: &mut [u8]) -> Vec<Repeater> {
        let mut listed = Vec::new();
        let mut since = 0;
        for passage in self.path.windows(3) {
            since += 1;
            let [into, out] = [[passage[0], passage[1]], [passage[1], passage[2]]]
                .map(|step| step_facing(room, step));
            if since >= self.run && into == out && out != facing::NONE {
                kinds[passage[1] as usize] = kind::REPEATER;
                listed.push(Repeater {
                    cell: passage[1] as u16,
                    facing: out,
                });
                since = 0;
            }
        }
        listed
    }
}

/// The facing of a step; none unless it is a flat one to a neighbour.
fn step_facing(room: &Room, step: [u32; 2]) -> u8 {
    let [from, to] = step.map(|cell| room.place(cell as usize));
    match (to.x - from.x, to.y - from.y, to.z - from.z) {
        (0, 0, -1) => facing::NORTH,
        (1, 0, 0) => facing::EAST,
        (0, 0, 1) => facing::SOUTH,
        (-1, 0, 0) => facing::WEST,
        _ => facing::NONE,
    }
}
