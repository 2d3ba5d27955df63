//! One search: the case, the numbers judged on its input, and the plain search.

use std::cmp::Reverse;
use std::collections::BinaryHeap;

use crate::Refusal;
use crate::room::{Config, DOWN, MOST_CELLS, Offset, Room, kind, kind_at, moves};

/// One search as it is asked for. Nothing is promised about its values: `judge` decides.
#[derive(Clone, Debug, Eq, PartialEq)]
pub struct Search {
    pub sides: [u16; 3],
    pub config: Config,
    pub start: u32,
    pub goal: u32,
    /// Places in the lent queue.
    pub queue: u32,
    /// The length of each other lent buffer.
    pub lent: u32,
    pub kinds: Vec<u8>,
}

#[derive(Clone, Debug, Eq, PartialEq)]
pub enum SearchAnswer {
    Refused(Refusal),
    Route {
        path: Vec<u16>,
        cost: u32,
        expanded: u32,
    },
}

/// The price of a step: the step by itself, and the new support where one is laid.
#[derive(Clone, Copy, Debug, Eq, PartialEq)]
pub struct Price {
    pub step: u32,
    pub support: Option<u32>,
}

impl Price {
    pub fn total(self) -> u64 {
        u64::from(self.step) + u64::from(self.support.unwrap_or(0))
    }
}

/// What the steps of a path and its new supports come to, and how many supports are new.
#[derive(Clone, Copy, Debug, Default, Eq, PartialEq)]
pub struct Totals {
    pub steps: u64,
    pub supports: u64,
    pub laid: u64,
}

impl Totals {
    fn plus(self, price: Price) -> Self {
        Self {
            steps: self.steps + u64::from(price.step),
            supports: self.supports + u64::from(price.support.unwrap_or(0)),
            laid: self.laid + u64::from(price.support.is_some()),
        }
    }
}

impl SearchAnswer {
    /// The number of a refusal; 0 for a route.
    pub fn number(&self) -> u8 {
        match self {
            Self::Refused(refusal) => refusal.number,
            Self::Route { .. } => 0,
        }
    }
}

impl Search {
    /// The numbers judged before the search starts: 2, 3, 6, 5, 4, in this order. The Rust has none of them.
    pub fn judge(&self) -> Result<Room, Refusal> {
        let room = Room::new(self.sides, MOST_CELLS).ok_or(Refusal::bare(2))?;
        let cells = room.cells();
        let outside = |end: u32| end as usize >= cells;
        if !self.config.in_range(cells) {
            Err(Refusal::bare(3))
        } else if self.kinds.len() != cells || (self.lent as usize) < cells || self.queue == 0 {
            Err(Refusal::bare(6))
        } else if self.kinds.iter().any(|kind| *kind > kind::LAST) {
            Err(Refusal::bare(5))
        } else if outside(self.start) || outside(self.goal) {
            Err(Refusal::bare(4))
        } else {
            Ok(room)
        }
    }

    /// The plain search on judged input, with a queue of `places`.
    pub fn run(&self, room: &Room, places: usize) -> Searched {
        self.question(room, places).search()
    }

    pub(crate) fn question<'a>(&'a self, room: &'a Room, places: usize) -> Question<'a> {
        Question {
            room,
            kinds: &self.kinds,
            start: self.start as usize,
            goal: self.goal as usize,
            config: &self.config,
            places,
            barred: &[],
        }
    }

    /// The totals of a path that this search answers, step by step by the rules.
    pub fn totals(&self, path: &[u16]) -> Totals {
        let room = self.judge().expect("it has a route");
        let question = self.question(&room, self.queue as usize);
        let steps = path.windows(2).map(|pair| {
            let [from, to] = [pair[0], pair[1]].map(usize::from);
            let mut steps = moves().filter_map(|offset| question.step(from, offset));
            let (_, price) = steps
                .find(|(next, _)| *next == to)
                .expect("each step of a route is lawful");
            price
        });
        steps.fold(Totals::default(), Totals::plus)
    }

    pub fn plain_answer(&self) -> SearchAnswer {
        match self.judge() {
            Err(refusal) => SearchAnswer::Refused(refusal),
            Ok(room) => self.run(&room, self.queue as usize).answer(),
        }
    }
}

/// How a search ended.
#[derive(Clone, Debug, Eq, PartialEq)]
pub enum End {
    Route { path: Vec<usize>, cost: u64 },
    NotRouteable { cell: usize },
    NoRoute,
    LimitPassed,
    QueueFull,
}

/// A search that was run: how it ended, its expanded count, the most entries that waited at one time, and whether a cell
/// was expanded again.
#[derive(Clone, Debug, Eq, PartialEq)]
pub struct Searched {
    pub end: End,
    pub expanded: u32,
    pub most_waiting: usize,
    pub again: bool,
}

impl Searched {
    pub fn answer(&self) -> SearchAnswer {
        let refused = |number, detail| SearchAnswer::Refused(Refusal::new(number, detail));
        match &self.end {
            End::Route { path, cost } => SearchAnswer::Route {
                path: cells16(path),
                cost: u32::try_from(*cost).expect("a known cost fits 32 bits"),
                expanded: self.expanded,
            },
            End::NotRouteable { cell } => refused(10, *cell as u32),
            End::NoRoute => refused(11, self.expanded),
            End::LimitPassed => refused(12, self.expanded),
            End::QueueFull => refused(13, self.expanded),
        }
    }
}

/// Cell numbers as the answers keep them; V is at most 65,536.
pub fn cells16(cells: &[usize]) -> Vec<u16> {
    cells.iter().map(|cell| *cell as u16).collect()
}

/// One search on judged input: `kinds` has V kinds, both ends are cells of the room.
pub struct Question<'a> {
    pub room: &'a Room,
    pub kinds: &'a [u8],
    pub start: usize,
    pub goal: usize,
    pub config: &'a Config,
    /// Places in the queue.
    pub places: usize,
    /// The cells whose Air is barred, by a mark each; none are where it is empty.
    pub barred: &'a [bool],
}

impl Question<'_> {
    /// The search of docs/RULES.md, on flat arrays.
    pub fn search(&self) -> Searched {
        let mut state = State::new(self.room.cells());
        let end = self.search_from(&mut state);
        Searched {
            end,
            expanded: state.expanded,
            most_waiting: state.most_waiting,
            again: state.again,
        }
    }

    fn search_from(&self, state: &mut State) -> End {
        let ends = [self.start, self.goal];
        if let Some(cell) = ends.into_iter().find(|cell| !self.routeable(*cell)) {
            return End::NotRouteable { cell };
        }
        state.push(self.start, 0, self.estimate(self.start));
        // Old entries stay in the queue, are taken again, and count.
        while let Some(cell) = state.take() {
            if cell == self.goal {
                return state.route_to(cell);
            }
            state.expand(cell);
            if state.expanded > self.config.node_limit {
                return End::LimitPassed;
            }
            for (next, price) in moves().filter_map(|offset| self.step(cell, offset)) {
                let cost = state.cost(cell) + price.total();
                if state.known[next].is_some_and(|known| cost >= known) {
                    continue;
                }
                if state.waiting.len() == self.places {
                    return End::QueueFull;
                }
                state.before[next] = Some(cell);
                state.push(next, cost, self.estimate(next));
            }
        }
        End::NoRoute
    }

    /// An Air cell that isn't barred is routeable; start and goal may also hold RedstoneWire.
    pub(crate) fn routeable(&self, cell: usize) -> bool {
        let kind = self.kinds[cell];
        kind == kind::AIR && !self.is_barred(cell)
            || self.is_end(cell) && kind == kind::REDSTONE_WIRE
    }

    fn is_end(&self, cell: usize) -> bool {
        cell == self.start || cell == self.goal
    }

    /// Barred Air is neither entered nor used as a support; the search's own start and goal are never barred.
    fn is_barred(&self, cell: usize) -> bool {
        let marked = self.barred.get(cell).is_some_and(|mark| *mark);
        marked && self.kinds[cell] == kind::AIR && !self.is_end(cell)
    }

    fn estimate(&self, cell: usize) -> u64 {
        10 * u64::from(self.room.distance(cell, self.goal))
    }

    /// The cell that a move enters and the step's price; none if the step is not lawful. The outside is Solid.
    pub fn step(&self, cell: usize, offset: Offset) -> Option<(usize, Price)> {
        let next = self.room.next(cell, offset)?;
        if !self.routeable(next) {
            return None;
        }
        let beneath = self.room.next(next, DOWN);
        let support = match kind_at(self.kinds, beneath) {
            _ if beneath.is_some_and(|cell| self.is_barred(cell)) => return None,
            kind::AIR => Some(self.config.support),
            kind::SOLID | kind::TRANSPARENT | kind::REDSTONE_BLOCK => None,
            _ => return None,
        };
        let step = if offset.1 == 0 {
            self.config.horizontal
        } else {
            self.config.stair
        };
        Some((next, Price { step, support }))
    }
}

/// The queue, ordered by key and then serial, and what is known of each cell.
struct State {
    waiting: BinaryHeap<Reverse<(u64, u64, usize)>>,
    serial: u64,
    most_waiting: usize,
    expanded: u32,
    expanded_before: Vec<bool>,
    again: bool,
    known: Vec<Option<u64>>,
    before: Vec<Option<usize>>,
}

impl State {
    fn new(cells: usize) -> Self {
        Self {
            waiting: BinaryHeap::new(),
            serial: 0,
            most_waiting: 0,
            expanded: 0,
            expanded_before: vec![false; cells],
            again: false,
            known: vec![None; cells],
            before: vec![None; cells],
        }
    }

    fn cost(&self, cell: usize) -> u64 {
        self.known[cell].expect("a cell that was taken is known")
    }

    fn push(&mut self, cell: usize, cost: u64, estimate: u64) {
        self.known[cell] = Some(cost);
        self.waiting
            .push(Reverse((cost + estimate, self.serial, cell)));
        self.serial += 1;
        self.most_waiting = self.most_waiting.max(self.waiting.len());
    }

    fn expand(&mut self, cell: usize) {
        self.expanded += 1;
        self.again |= std::mem::replace(&mut self.expanded_before[cell], true);
    }

    fn take(&mut self) -> Option<usize> {
        self.waiting.pop().map(|Reverse((_, _, cell))| cell)
    }

    fn route_to(&self, goal: usize) -> End {
        let mut path = vec![goal];
        let mut cell = goal;
        while let Some(before) = self.before[cell] {
            cell = before;
            path.push(cell);
        }
        path.reverse();
        End::Route {
            path,
            cost: self.cost(goal),
        }
    }
}
