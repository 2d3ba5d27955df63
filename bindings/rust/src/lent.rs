//! The memory that the router is lent. [`crate::search`], [`crate::why`], [`crate::plain`], [`crate::write_sheet`], [`crate::route_tree`],
//! [`crate::route_nets`], [`crate::place_repeaters`] and the functions over a function file make their own; here a caller keeps it from one call to the
//! next, or lends another length. Any length and any content is lawful: what is too short is refused.

use crate::answer::{Cost, Nodes, PlainRefusal, PlainRoute, Refusal, Route, Tree};
use crate::ffi::{dustroute_plain, dustroute_search, dustroute_tree, dustroute_tree_mode, dustroute_tree_why, dustroute_why};
use crate::job::{Code, Config, Costs, Room, Sheet, bytes_of};
use crate::mode::Mode;
use crate::tree_why::{ShutIn, TreeWhy, Unreached, Verdict};
use crate::why::{MOVES, Walled, WalledIn, Why};

pub use crate::function::{FUNCTION_VALUES, LINE_BYTES, ReadMemory, WriteMemory};
pub use crate::nets::{NET_LENGTHS, NETS_VALUES, NetsLengths, NetsMemory};
pub use crate::plan::{PLAN_VALUES, PlanMemory};
pub use crate::sheet::{SheetMemory, WRITE_VALUES};

/// How many values a search, a plain route and a tree come to, a search with its totals, and a tree with its reason.
pub const SEARCH_VALUES: usize = 4;
pub const SEARCH_TOTALS: usize = 7;
pub const PLAIN_VALUES: usize = 3;
pub const TREE_VALUES: usize = 20;
pub const TREE_WHY_VALUES: usize = 22;

/// A place of the queue takes two numbers.
pub(crate) const NUMBERS_A_PLACE: usize = 2;

/// The highest node limit that isn't refused.
const MAX_LIMIT: u32 = 800_000;

/// How many places of the queue are never all taken at once. With a flat step of at least 10 and a stair of at least 20, five for
/// each cell. At lower costs 11 for each node of the limit, and one: a cell that is expanded leaves its place and enters at most
/// twelve others.
pub fn places_that_suffice(cells: usize, config: Config) -> usize {
    if config.horizontal >= 10 && config.stair >= 20 {
        5 * cells
    } else {
        11 * config.limit.min(MAX_LIMIT) as usize + 1
    }
}

/// How many cells the branches of sixteen sinks have at most: each branch, every cell once and one of them a second time.
pub fn branch_cells_that_suffice(cells: usize) -> usize {
    Sheet::MAX_SINKS * (cells + 1)
}

/// What a search is lent: `path` and `values` are its output, the others work memory.
#[derive(Clone, Debug, Eq, PartialEq)]
pub struct SearchMemory {
    pub path: Vec<u32>,
    pub known: Vec<u32>,
    pub previous: Vec<u32>,
    pub classes: Vec<u8>,
    pub queue: Vec<u64>,
    pub values: Vec<u64>,
}

impl SearchMemory {
    /// Memory for a room of so many cells, with a queue of so many places.
    pub fn new(cells: usize, places: usize) -> Self {
        Self {
            path: vec![0; cells],
            known: vec![0; cells],
            previous: vec![0; cells],
            classes: vec![0; cells],
            queue: vec![0; NUMBERS_A_PLACE * places],
            values: vec![0; SEARCH_TOTALS],
        }
    }

    /// Memory that suffices. A room that is refused needs none.
    pub fn for_search(room: Room, config: Config) -> Self {
        let cells = room.cells().unwrap_or(0);
        Self::new(cells, places_that_suffice(cells, config))
    }

    /// One search from cell `start` to cell `goal`. A refusal by 1 to 6 leaves the memory as it was, `values` included; but where
    /// `values` is long enough for a route and not for its totals, it is made so first.
    pub fn search<C: Code>(&mut self, room: Room, config: Config, kinds: &[C], start: usize, goal: usize) -> Result<Route, Refusal> {
        self.make_room_for_totals();
        let number = self.call(room, config, bytes_of(kinds), start, goal);
        self.answer(number)
    }

    /// Lends as many values as a route with its totals comes to, where as many as a route asks for are lent.
    fn make_room_for_totals(&mut self) {
        if (SEARCH_VALUES..SEARCH_TOTALS).contains(&self.values.len()) {
            self.values.resize(SEARCH_TOTALS, 0);
        }
    }

    /// What a search that returned this number left here.
    fn answer(&self, number: u32) -> Result<Route, Refusal> {
        match number {
            0 => Ok(Route {
                path: self.path[..self.values[1] as usize].to_vec(),
                cost: Cost(self.values[2] as u32),
                expanded: Nodes(self.values[3] as u32),
                steps: Cost(self.values[4] as u32),
                supports: Cost(self.values[5] as u32),
                laid: self.values[6] as u32,
            }),
            refused => Err(Refusal::of(refused, detail(refused, &self.values))),
        }
    }

    /// The bare call: the number comes back, 0 for a route, and the memory is as the router leaves it.
    pub fn call(&mut self, room: Room, config: Config, kinds: &[u8], start: usize, goal: usize) -> u32 {
        // SAFETY: each pointer and length is that of a slice that lives through the call, and no two of them overlap. The router has
        // no requirement on what it is handed, and reads and writes within the slices alone.
        unsafe {
            dustroute_search(
                room.wide.into(),
                room.high.into(),
                room.deep.into(),
                config.limit,
                config.horizontal,
                config.stair,
                config.support,
                kinds.as_ptr(),
                kinds.len(),
                start,
                goal,
                self.path.as_mut_ptr(),
                self.path.len(),
                self.known.as_mut_ptr(),
                self.known.len(),
                self.previous.as_mut_ptr(),
                self.previous.len(),
                self.classes.as_mut_ptr(),
                self.classes.len(),
                self.queue.as_mut_ptr(),
                self.queue.len(),
                self.values.as_mut_ptr(),
                self.values.len(),
            )
        }
    }
}

/// What a search is lent that tells its reason: `reached` and `walls` are output, too.
#[derive(Clone, Debug, Eq, PartialEq)]
pub struct WhyMemory {
    pub search: SearchMemory,
    pub reached: Vec<u8>,
    pub walls: Vec<u8>,
}

impl WhyMemory {
    /// Memory for a room of so many cells, with a queue of so many places.
    pub fn new(cells: usize, places: usize) -> Self {
        Self {
            search: SearchMemory::new(cells, places),
            reached: vec![0; cells],
            walls: vec![0; MOVES.len() * cells],
        }
    }

    /// Memory that suffices. A room that is refused needs none.
    pub fn for_search(room: Room, config: Config) -> Self {
        let cells = room.cells().unwrap_or(0);
        Self::new(cells, places_that_suffice(cells, config))
    }

    /// One search from cell `start` to cell `goal`, and the reason where there is no route. A refusal by 1 to 6 leaves the memory as it
    /// was, `values` included, as [`SearchMemory::search`] has it.
    pub fn why<C: Code>(&mut self, room: Room, config: Config, kinds: &[C], start: usize, goal: usize) -> Why {
        self.search.make_room_for_totals();
        let number = self.call(room, config, bytes_of(kinds), start, goal);
        match self.search.answer(number) {
            Ok(route) => Why::Route(route),
            Err(Refusal::NoRoute(expanded)) => Why::WalledIn(WalledIn::new(expanded, Walled::new(room, &self.reached, &self.walls))),
            Err(refusal) => Why::Refused(refusal),
        }
    }

    /// The bare call: the number comes back, 0 for a route, and the memory is as the router leaves it.
    pub fn call(&mut self, room: Room, config: Config, kinds: &[u8], start: usize, goal: usize) -> u32 {
        let search = &mut self.search;
        // SAFETY: each pointer and length is that of a slice that lives through the call, and no two of them overlap. The router has
        // no requirement on what it is handed, and reads and writes within the slices alone.
        unsafe {
            dustroute_why(
                room.wide.into(),
                room.high.into(),
                room.deep.into(),
                config.limit,
                config.horizontal,
                config.stair,
                config.support,
                kinds.as_ptr(),
                kinds.len(),
                start,
                goal,
                search.path.as_mut_ptr(),
                search.path.len(),
                self.reached.as_mut_ptr(),
                self.reached.len(),
                self.walls.as_mut_ptr(),
                self.walls.len(),
                search.known.as_mut_ptr(),
                search.known.len(),
                search.previous.as_mut_ptr(),
                search.previous.len(),
                search.classes.as_mut_ptr(),
                search.classes.len(),
                search.queue.as_mut_ptr(),
                search.queue.len(),
                search.values.as_mut_ptr(),
                search.values.len(),
            )
        }
    }
}

/// What the plain engine is lent: `path` and `values` are its output, the others work memory.
#[derive(Clone, Debug, Eq, PartialEq)]
pub struct PlainMemory {
    pub path: Vec<u32>,
    pub known: Vec<u32>,
    pub previous: Vec<u32>,
    pub classes: Vec<u8>,
    pub values: Vec<u64>,
}

impl PlainMemory {
    /// Memory for a room of so many cells. A room that is refused needs none.
    pub fn new(cells: usize) -> Self {
        Self {
            path: vec![0; cells],
            known: vec![0; cells],
            previous: vec![0; cells],
            classes: vec![0; cells],
            values: vec![0; PLAIN_VALUES],
        }
    }

    /// A cheapest route from cell `start` to cell `goal`. A refusal by 2 to 6 leaves the memory as it was, `values` included.
    pub fn plain<C: Code>(&mut self, room: Room, costs: Costs, kinds: &[C], start: usize, goal: usize) -> Result<PlainRoute, PlainRefusal> {
        let number = self.call(room, costs, bytes_of(kinds), start, goal);
        match number {
            0 => Ok(PlainRoute {
                path: self.path[..self.values[1] as usize].to_vec(),
                cost: Cost(self.values[2] as u32),
            }),
            refused => Err(PlainRefusal::of(refused, detail(refused, &self.values))),
        }
    }

    /// The bare call: the number comes back, 0 for a route, and the memory is as the router leaves it.
    pub fn call(&mut self, room: Room, costs: Costs, kinds: &[u8], start: usize, goal: usize) -> u32 {
        // SAFETY: each pointer and length is that of a slice that lives through the call, and no two of them overlap. The router has
        // no requirement on what it is handed, and reads and writes within the slices alone.
        unsafe {
            dustroute_plain(
                room.wide.into(),
                room.high.into(),
                room.deep.into(),
                costs.horizontal,
                costs.stair,
                costs.support,
                kinds.as_ptr(),
                kinds.len(),
                start,
                goal,
                self.path.as_mut_ptr(),
                self.path.len(),
                self.known.as_mut_ptr(),
                self.known.len(),
                self.previous.as_mut_ptr(),
                self.previous.len(),
                self.classes.as_mut_ptr(),
                self.classes.len(),
                self.values.as_mut_ptr(),
                self.values.len(),
            )
        }
    }
}

/// Calls a function of a tree over the sheet and each buffer of its memory, a pointer and a length each; a mode stands before them, and
/// further outputs behind the tree's.
macro_rules! over_slices {
    ($function:ident, $memory:expr, $sheet:expr $(, $mode:expr $(; $($output:expr),+)?)?) => {
        $function(
            $($mode,)?
            $sheet.as_ptr(),
            $sheet.len(),
            $memory.branches.as_mut_ptr(),
            $memory.branches.len(),
            $memory.occupied.as_mut_ptr(),
            $memory.occupied.len(),
            $memory.repeaters.as_mut_ptr(),
            $memory.repeaters.len(),
            $($($($output.as_mut_ptr(), $output.len(),)+)?)?
            $memory.kinds.as_mut_ptr(),
            $memory.kinds.len(),
            $memory.blocked.as_mut_ptr(),
            $memory.blocked.len(),
            $memory.classes.as_mut_ptr(),
            $memory.classes.len(),
            $memory.joinable.as_mut_ptr(),
            $memory.joinable.len(),
            $memory.known.as_mut_ptr(),
            $memory.known.len(),
            $memory.previous.as_mut_ptr(),
            $memory.previous.len(),
            $memory.path.as_mut_ptr(),
            $memory.path.len(),
            $memory.best.as_mut_ptr(),
            $memory.best.len(),
            $memory.queue.as_mut_ptr(),
            $memory.queue.len(),
            $memory.values.as_mut_ptr(),
            $memory.values.len(),
        )
    };
}

/// What a tree is lent: `branches`, `occupied`, `repeaters` and `values` are its output, the others work memory.
#[derive(Clone, Debug, Eq, PartialEq)]
pub struct TreeMemory {
    pub branches: Vec<u32>,
    pub occupied: Vec<u8>,
    pub repeaters: Vec<u8>,
    pub kinds: Vec<u8>,
    pub blocked: Vec<u8>,
    pub classes: Vec<u8>,
    pub joinable: Vec<u8>,
    pub known: Vec<u32>,
    pub previous: Vec<u32>,
    pub path: Vec<u32>,
    pub best: Vec<u32>,
    pub queue: Vec<u64>,
    pub values: Vec<u64>,
}

impl TreeMemory {
    /// Memory for a room of so many cells, with a queue of so many places and a branch buffer of so many cells.
    pub fn new(cells: usize, places: usize, branch_cells: usize) -> Self {
        Self {
            branches: vec![0; branch_cells],
            occupied: vec![0; cells],
            repeaters: vec![0; cells],
            kinds: vec![0; cells],
            blocked: vec![0; cells],
            classes: vec![0; cells],
            joinable: vec![0; cells],
            known: vec![0; cells],
            previous: vec![0; cells],
            path: vec![0; cells],
            best: vec![0; cells],
            queue: vec![0; NUMBERS_A_PLACE * places],
            values: vec![0; TREE_VALUES],
        }
    }

    /// Memory that suffices. A sheet that is refused before its buffers are judged needs none.
    pub fn for_sheet(sheet: &Sheet) -> Self {
        let cells = sheet.room().and_then(Room::cells).unwrap_or(0);
        let places = places_that_suffice(cells, sheet.config().unwrap_or_default());
        Self::new(cells, places, branch_cells_that_suffice(cells))
    }

    /// The tree of a sheet. A refusal by 1 to 6 leaves the memory as it was, `values` included.
    pub fn route_tree(&mut self, sheet: &Sheet) -> Result<Tree, Refusal> {
        let number = self.call(sheet.bytes());
        self.answer(number)
    }

    /// The tree of a sheet in a mode.
    pub fn route_tree_in(&mut self, mode: Mode, sheet: &Sheet) -> Result<Tree, Refusal> {
        let number = self.call_mode(mode.number(), sheet.bytes());
        self.answer(number)
    }

    /// What a tree that returned this number left here.
    fn answer(&self, number: u32) -> Result<Tree, Refusal> {
        match number {
            0 => Ok(Tree {
                branches: self.cut_branches(),
                occupied: marked(&self.occupied),
                repeaters: marked(&self.repeaters),
            }),
            refused => Err(Refusal::of(refused, detail(refused, &self.values))),
        }
    }

    /// The bare call, over any bytes: the number comes back, 0 for a tree, and the memory is as the router leaves it.
    pub fn call(&mut self, sheet: &[u8]) -> u32 {
        // SAFETY: each pointer and length is that of a slice that lives through the call, and no two of them overlap. The router has
        // no requirement on what it is handed, and reads and writes within the slices alone.
        unsafe { over_slices!(dustroute_tree, self, sheet) }
    }

    /// The same in the mode that a number stands for: 0 is the published one, any other number strict.
    pub fn call_mode(&mut self, strict: u32, sheet: &[u8]) -> u32 {
        // SAFETY: as for `call`; the mode is a number, and any is lawful.
        unsafe { over_slices!(dustroute_tree_mode, self, sheet, strict) }
    }

    /// The branches stand one behind another, and the values tell how long each is.
    fn cut_branches(&self) -> Vec<Vec<u32>> {
        let count = self.values[1] as usize;
        let mut rest = self.branches.as_slice();
        let lengths = self.values[4..4 + count].iter();
        lengths
            .map(|length| {
                let (branch, behind) = rest.split_at(*length as usize);
                rest = behind;
                branch.to_vec()
            })
            .collect()
    }
}

/// What a tree is lent that tells why a sink wasn't reached: `reached`, `walls` and `causes` are output, too.
#[derive(Clone, Debug, Eq, PartialEq)]
pub struct TreeWhyMemory {
    pub tree: TreeMemory,
    pub reached: Vec<u8>,
    pub walls: Vec<u8>,
    pub causes: Vec<u8>,
}

impl TreeWhyMemory {
    /// The memory of a tree, with as many values as its reason comes to, and outputs for a room of so many cells.
    pub fn new(tree: TreeMemory, cells: usize) -> Self {
        Self {
            tree: TreeMemory {
                values: vec![0; TREE_WHY_VALUES],
                ..tree
            },
            reached: vec![0; cells],
            walls: vec![0; MOVES.len() * cells],
            causes: vec![0; cells],
        }
    }

    /// Memory that suffices. A sheet that is refused before its buffers are judged needs none.
    pub fn for_sheet(sheet: &Sheet) -> Self {
        let cells = sheet.room().and_then(Room::cells).unwrap_or(0);
        Self::new(TreeMemory::for_sheet(sheet), cells)
    }

    /// The tree of a sheet in a mode, or why a sink wasn't reached. A refusal by 1 to 6 leaves the memory as it was, `values` included.
    pub fn why_tree(&mut self, mode: Mode, sheet: &Sheet) -> TreeWhy {
        let number = self.call(mode.number(), sheet.bytes());
        match self.tree.answer(number) {
            Ok(tree) => TreeWhy::Tree(tree),
            Err(refusal @ (Refusal::QueueFull(_) | Refusal::NoGoal { .. })) => {
                let room = sheet.room().expect("a room that is not refused");
                TreeWhy::Unreached(self.unreached(refusal, room))
            }
            Err(refusal) => TreeWhy::Refused(refusal),
        }
    }

    fn unreached(&self, refusal: Refusal, room: Room) -> Unreached {
        let [.., sink, verdict] = self.tree.values[..TREE_WHY_VALUES] else {
            unreachable!("fewer values are refused")
        };
        let shut_in = || {
            let cells = Walled::new(room, &self.reached, &self.walls);
            ShutIn::new(cells, &self.causes[..room.cells().unwrap_or(0)])
        };
        Unreached {
            sink: sink as u32,
            refusal,
            verdict: Verdict::of(verdict, shut_in),
        }
    }

    /// The bare call, in the mode that a number stands for, over any bytes: the number comes back, 0 for a tree, and the memory is as the
    /// router leaves it.
    pub fn call(&mut self, strict: u32, sheet: &[u8]) -> u32 {
        // SAFETY: as for `TreeMemory::call_mode`.
        unsafe { over_slices!(dustroute_tree_why, self.tree, sheet, strict; self.reached, self.walls, self.causes) }
    }
}

/// Numbers 1 to 6 write no values; their detail is 0.
pub(crate) fn detail(number: u32, values: &[u64]) -> u64 {
    if number <= 6 { 0 } else { values[0] }
}

/// The cells that are marked, ascending.
pub(crate) fn marked(marks: &[u8]) -> Vec<u32> {
    let cells = (0..).zip(marks);
    cells.filter(|(_, mark)| **mark != 0).map(|(cell, _)| cell).collect()
}
