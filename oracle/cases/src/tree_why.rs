//! Why couldn't a sink be reached? The case, what is judged of it, and a plain flood at the turn at which the tree stops:
//! docs/MORE-RULES.md, Why a sink wasn't reached.

use std::collections::BTreeSet;

use crate::Refusal;
use crate::conflict::stairs;
use crate::room::{
    Config, DOWN, MOST_CELLS, MOST_NODES, Place, Room, kind, kind_at, moves, sideways,
};
use crate::search::{End, Question};
use crate::sheet::{Block, Job, Sheet, TreeAnswer};
use crate::tree::{Mode, Stopped, route_in_mode, stopped_in_mode};
use crate::why::{MOVES, Told, reason};

/// What may be said of the sink.
pub mod verdict {
    pub const APPROACH_TAKEN: u8 = 1;
    pub const SHUT_IN: u8 = 2;
    pub const CONFLICTS: u8 = 3;
    pub const CUT_SHORT: u8 = 4;
}

/// What is told of a move, beside the reasons of a search.
pub mod kept {
    /// The cell is kept free: blocked Air.
    pub const FREE: u8 = 4;
    /// What is beneath it is kept free; in strict mode alone.
    pub const SUPPORT_FREE: u8 = 5;
}

/// Why a cell is blocked: one bit a reason.
pub mod cause {
    pub const CONDUCTOR: u8 = 1;
    pub const KEEPOUT: u8 = 2;
    pub const CLEARANCE: u8 = 4;
    pub const TERMINAL: u8 = 8;
    pub const RESERVED: u8 = 16;
    pub const BLOCK: u8 = 32;
    /// A clearance of this net's own branches so far.
    pub const OWN: u8 = 64;
    pub const ALL: [u8; 7] = [
        CONDUCTOR, KEEPOUT, CLEARANCE, TERMINAL, RESERVED, BLOCK, OWN,
    ];
}

/// A sheet of which the tree is asked in a mode, and why a sink wasn't reached. Nothing is promised about its values: `judge` decides.
#[derive(Clone, Debug, Eq, PartialEq)]
pub struct TreeWhy {
    pub sheet: Sheet,
    pub mode: Mode,
    /// The lengths of the three lent outputs: a byte for each cell that is reached, twelve for its moves, one for its causes.
    pub reached: u32,
    pub walls: u32,
    pub causes: u32,
}

/// What is told of the sink that wasn't reached.
#[derive(Clone, Debug, Eq, PartialEq)]
pub struct SinkReason {
    /// The sink's place in the sheet, from 1.
    pub place: u8,
    pub verdict: u8,
    /// The cells reached, ascending. None is told but of a sink that is shut in.
    pub reached: Vec<Told>,
    /// Each blocked cell and its causes, ascending. None is told but of a sink that is shut in.
    pub causes: Vec<(u16, u8)>,
}

#[derive(Clone, Debug, Eq, PartialEq)]
pub struct TreeWhyAnswer {
    /// What the tree itself answers.
    pub tree: TreeAnswer,
    /// On numbers 13 and 14.
    pub reason: Option<SinkReason>,
}

impl TreeWhyAnswer {
    pub fn number(&self) -> u8 {
        self.tree.number()
    }

    /// The verdict; 0 where none is given.
    pub fn verdict(&self) -> u8 {
        self.reason.as_ref().map_or(0, |reason| reason.verdict)
    }
}

impl SinkReason {
    /// What the output for the cells reached begins with, in a room of so many cells; zeros are behind it. So for the others.
    pub fn reached_bytes(&self, cells: usize) -> Vec<u8> {
        let mut bytes = vec![0; cells];
        self.reached
            .iter()
            .for_each(|told| bytes[usize::from(told.cell)] = 1);
        bytes
    }

    pub fn walls_bytes(&self, cells: usize) -> Vec<u8> {
        let mut bytes = vec![0; MOVES * cells];
        for told in &self.reached {
            let first = MOVES * usize::from(told.cell);
            bytes[first..first + MOVES].copy_from_slice(&told.moves);
        }
        bytes
    }

    pub fn causes_bytes(&self, cells: usize) -> Vec<u8> {
        let mut bytes = vec![0; cells];
        self.causes
            .iter()
            .for_each(|(cell, bits)| bytes[usize::from(*cell)] = *bits);
        bytes
    }
}

impl TreeWhy {
    /// The sheet with outputs that just suffice.
    pub fn of(sheet: Sheet, mode: Mode) -> Self {
        let room = Job::read(&sheet.bytes)
            .ok()
            .and_then(|job| Room::new(job.sides, MOST_CELLS));
        let cells = room.map_or(0, |room| room.cells()) as u32;
        Self {
            sheet,
            mode,
            reached: cells,
            walls: MOVES as u32 * cells,
            causes: cells,
        }
    }

    /// Numbers 1 to 6: those of the tree in their order, 6 for any of the three outputs as well.
    pub fn judge(&self) -> Result<(Job, Room), Refusal> {
        let (job, room) = self.sheet.judge(MOST_CELLS)?;
        let short = [self.reached, self.causes]
            .iter()
            .any(|length| (*length as usize) < room.cells());
        if short || (self.walls as usize) < MOVES * room.cells() {
            return Err(Refusal::bare(6));
        }
        Ok((job, room))
    }

    pub fn plain_answer(&self) -> TreeWhyAnswer {
        let (job, room) = match self.judge() {
            Ok(judged) => judged,
            Err(refusal) => {
                return TreeWhyAnswer {
                    tree: TreeAnswer::Refused(refusal),
                    reason: None,
                };
            }
        };
        let net = route_in_mode(&job, &room, self.sheet.limits(), self.mode);
        let tree = net.map_or_else(TreeAnswer::Refused, |net| net.answer());
        self.explained(&job, &room, tree)
    }

    /// The answer to judged input whose tree has this answer.
    pub fn explained(&self, job: &Job, room: &Room, tree: TreeAnswer) -> TreeWhyAnswer {
        let reason = self.turn(job, room, &tree).map(|turn| turn.reason());
        TreeWhyAnswer { tree, reason }
    }

    /// The turn at which the tree of judged input, whose answer is given, stops with 13 or 14, if it does.
    pub fn turn<'a>(&self, job: &'a Job, room: &'a Room, tree: &TreeAnswer) -> Option<Turn<'a>> {
        if !matches!(tree.number(), 13 | 14) {
            return None;
        }
        let stopped = stopped_in_mode(job, room, self.sheet.limits(), self.mode)?;
        Some(Turn {
            job,
            room,
            mode: self.mode,
            stopped,
        })
    }
}

/// The turn of the sink that wasn't reached.
pub struct Turn<'a> {
    pub job: &'a Job,
    pub room: &'a Room,
    pub mode: Mode,
    pub stopped: Stopped,
}

impl Turn<'_> {
    pub fn reason(&self) -> SinkReason {
        let met = self.flood();
        let verdict = self.verdict(&met);
        let shut_in = verdict == verdict::SHUT_IN;
        let cells = || (0..self.room.cells()).filter(|_| shut_in);
        SinkReason {
            place: self.stopped.sink as u8 + 1,
            verdict,
            reached: cells()
                .filter(|cell| met.contains(cell))
                .map(|cell| self.told(cell))
                .collect(),
            causes: cells()
                .map(|cell| (cell as u16, self.causes(cell)))
                .filter(|(_, bits)| *bits != 0)
                .collect(),
        }
    }

    fn verdict(&self, met: &BTreeSet<usize>) -> u8 {
        let approach = self.stopped.kinds[self.stopped.approach()];
        if self.stopped.refusal.number == 13 {
            verdict::CUT_SHORT
        } else if ![kind::AIR, kind::REDSTONE_WIRE].contains(&approach) {
            verdict::APPROACH_TAKEN
        } else if self.stopped.joinable.is_disjoint(met) {
            verdict::SHUT_IN
        } else if self.is_ample() {
            verdict::CONFLICTS
        } else {
            verdict::CUT_SHORT
        }
    }

    /// Costs at which no estimate is too high, and a node limit that no search passes.
    pub fn is_ample(&self) -> bool {
        let config = &self.job.config;
        let limit = 5 * (self.room.cells() - 1) + 1;
        config.horizontal >= 10 && config.stair >= 20 && config.node_limit as usize >= limit
    }

    /// The cells that steps lead to from the approach where it and every joinable cell are exempt from blocking and may hold
    /// RedstoneWire.
    fn flood(&self) -> BTreeSet<usize> {
        let start = self.stopped.approach();
        let mut met = BTreeSet::from([start]);
        let mut waiting = vec![start];
        while let Some(cell) = waiting.pop() {
            for next in moves().filter_map(|offset| self.room.next(cell, offset)) {
                if self.obstacle(next) == reason::ALLOWED && met.insert(next) {
                    waiting.push(next);
                }
            }
        }
        met
    }

    fn told(&self, cell: usize) -> Told {
        let mut told = Told {
            cell: cell as u16,
            moves: [reason::OUTSIDE; MOVES],
        };
        for (place, offset) in told.moves.iter_mut().zip(moves()) {
            if let Some(next) = self.room.next(cell, offset) {
                *place = self.obstacle(next);
            }
        }
        told
    }

    fn is_exempt(&self, cell: usize) -> bool {
        cell == self.stopped.approach() || self.stopped.joinable.contains(&cell)
    }

    /// Blocked Air that is not exempt.
    fn is_kept_free(&self, cell: usize) -> bool {
        self.stopped.kinds[cell] == kind::AIR && self.stopped.blocked[cell] && !self.is_exempt(cell)
    }

    /// The least reason that stands against entering a cell of the room; 0 if none does.
    fn obstacle(&self, cell: usize) -> u8 {
        let kinds = &self.stopped.kinds;
        let beneath = self.room.next(cell, DOWN);
        let routeable = match kinds[cell] {
            kind::AIR => true,
            kind::REDSTONE_WIRE => self.is_exempt(cell),
            _ => false,
        };
        let bears = matches!(
            kind_at(kinds, beneath),
            kind::AIR | kind::SOLID | kind::TRANSPARENT | kind::REDSTONE_BLOCK
        );
        if !routeable {
            reason::TAKEN
        } else if !bears {
            reason::BAD_SUPPORT
        } else if self.is_kept_free(cell) {
            kept::FREE
        } else if self.mode == Mode::Strict && beneath.is_some_and(|cell| self.is_kept_free(cell)) {
            kept::SUPPORT_FREE
        } else {
            reason::ALLOWED
        }
    }

    /// Why a cell is blocked, by the records of the sheet and the branches so far.
    fn causes(&self, cell: usize) -> u8 {
        let job = self.job;
        let place = self.room.place(cell);
        let listed = |list: &[[u16; 3]]| list.iter().any(|at| Place::from(*at) == place);
        let beside = |at: Place| is_in_keepout(at, place);
        let foreign = [
            (cause::CONDUCTOR, listed(&job.conductors)),
            (
                cause::KEEPOUT,
                job.conductors.iter().any(|at| beside(Place::from(*at))),
            ),
            (cause::CLEARANCE, listed(&job.clearances)),
            (cause::TERMINAL, listed(&job.terminals)),
            (cause::RESERVED, listed(&job.reserved)),
            (
                cause::BLOCK,
                job.blocks
                    .iter()
                    .any(|block| self.live(block).is_some_and(beside)),
            ),
        ];
        let own = (cause::OWN, self.is_own_clearance(cell));
        let told = foreign.into_iter().filter(|_| !self.is_own(place));
        told.chain([own])
            .filter(|(_, holds)| *holds)
            .map(|(bit, _)| bit)
            .sum()
    }

    /// The place whose keepout a block asks for.
    fn live(&self, block: &Block) -> Option<Place> {
        let at = Place::from(block.at);
        match block.kind {
            kind::REDSTONE_TORCH | kind::REDSTONE_BLOCK | kind::LEVER => Some(at),
            kind::REPEATER => {
                let output = at.plus(sideways(block.facing)?);
                let feeds = |other: &Block| {
                    other.node == block.node
                        && other.kind == kind::SOLID
                        && Place::from(other.at) == output
                };
                self.job.blocks.iter().any(feeds).then_some(output)
            }
            _ => None,
        }
    }

    /// A terminal or approach of this net, or right beneath one: what other nets and blocks ask for was taken out there.
    fn is_own(&self, place: Place) -> bool {
        let own = self.stopped.ends.own().into_iter();
        own.map(|cell| self.room.place(cell))
            .any(|end| place == end || place == end.plus(DOWN))
    }

    fn is_own_clearance(&self, cell: usize) -> bool {
        let branches = self.stopped.branches.iter();
        branches
            .flat_map(|branch| stairs(self.room, branch))
            .any(|stair| stair.clearance == cell)
    }

    /// The room as the first search of a goal sees it in the published mode: no conflict is blocked yet.
    pub fn walled(&self, goal: usize) -> Vec<u8> {
        let mut kinds = self.stopped.kinds.clone();
        for (cell, kind) in kinds.iter_mut().enumerate() {
            let is_end = [self.stopped.approach(), goal].contains(&cell);
            if *kind == kind::AIR && self.stopped.blocked[cell] && !is_end {
                *kind = kind::SOLID;
            }
        }
        kinds
    }

    /// Whether the first search of a goal finds a way where neither the node limit nor the queue ends it: that hangs on no costs.
    pub fn finds_a_way(&self, goal: usize) -> bool {
        let (kinds, barred) = match self.mode {
            Mode::Published => (self.walled(goal), [].as_slice()),
            Mode::Strict => (self.stopped.kinds.clone(), self.stopped.blocked.as_slice()),
        };
        let question = Question {
            room: self.room,
            kinds: &kinds,
            start: self.stopped.approach(),
            goal,
            config: &UNLIMITED,
            places: usize::MAX,
            barred,
        };
        let end = question.search().end;
        assert!(end != End::LimitPassed, "five for each cell always do");
        matches!(end, End::Route { .. })
    }
}

/// Costs at which no room is so large that a search passes the limit.
pub const UNLIMITED: Config = Config {
    node_limit: MOST_NODES,
    ..Config::DEFAULT
};

/// Whether a cell is in the keepout of another: a neighbour on its level, or one up or down from such a one.
fn is_in_keepout(of: Place, cell: Place) -> bool {
    of.x.abs_diff(cell.x) + of.z.abs_diff(cell.z) == 1 && of.y.abs_diff(cell.y) <= 1
}
