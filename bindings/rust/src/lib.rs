//! DustRoute's router, proved in Rattle, behind safe functions: [`search`] looks for one route in a room of kinds, [`why`]
//! tells the reason as well where there is none, [`plain`] looks for a cheapest route by other means, to check against,
//! [`write_sheet`], or [`Job::sheet`], writes a job sheet, [`route_tree`] makes the tree that a job sheet asks for, [`route_tree_in`] in strict mode as well, and [`why_tree`] tells why a sink
//! wasn't reached. [`route_nets`] routes several nets over one room, one after another, and lays them into it. [`place_repeaters`] plans the
//! repeaters of branches that are given.
//! [`materialize_route`] and [`insert_repeaters`] draw one route into a room of kinds. [`write_function`] writes a room
//! as the text of commands that lays it in the game, and [`read_function`] reads one.
//!
//! Every input gets an answer: a bad room, cost, position or sheet comes back as a [`Refusal`]. The functions lend the router
//! as much memory as its answer can need, so that [`Refusal::QueueFull`] and [`Refusal::BranchesFull`] never come from them, and
//! [`Refusal::Buffer`] only from a search whose `kinds` are not one for each cell. Who wants to keep the memory, or to lend less,
//! calls through [`lent`].

mod answer;
pub mod draw;
mod ffi;
mod function;
mod job;
pub mod lent;
mod mode;
mod nets;
mod plan;
mod sheet;
mod tree_why;
mod why;

pub use answer::{Cost, End, Nodes, PlainRefusal, PlainRoute, Reached, Refusal, Route, Tree};
pub use draw::{Repeater, insert_repeaters, materialize_route};
pub use function::LaidRoom;
pub use job::{Block, Code, Config, Costs, Endpoint, Facing, Job, Kind, Port, Position, Room, Sheet, Sink};
pub use mode::Mode;
pub use nets::{NetRefusal, Nets};
pub use plan::Net;
pub use sheet::Parts;
pub use tree_why::{Cause, ShutIn, TreeWhy, Unreached, Verdict};
pub use why::{MOVES, Reason, Wall, WalledIn, Why};

use lent::{
    LINE_BYTES, NetsMemory, PlainMemory, PlanMemory, ReadMemory, SearchMemory, SheetMemory, TreeMemory, TreeWhyMemory, WhyMemory,
    WriteMemory,
};

/// One search from cell `start` to cell `goal` in a room whose cells hold `kinds`, one for each cell in number order: a slice of
/// [`Kind`] or of bytes.
pub fn search<C: Code>(room: Room, config: Config, kinds: &[C], start: usize, goal: usize) -> Result<Route, Refusal> {
    SearchMemory::for_search(room, config).search(room, config, kinds, start, goal)
}

/// The same search, and where there is no route the reason: which cells wire gets to, and what stands round them.
pub fn why<C: Code>(room: Room, config: Config, kinds: &[C], start: usize, goal: usize) -> Why {
    WhyMemory::for_search(room, config).why(room, config, kinds, start, goal)
}

/// A cheapest route from cell `start` to cell `goal`, at any costs, by sweeps over the room: with no estimate, no queue and no node
/// limit. Slower than [`search`], and at a flat step of 10 and a stair of 20 or more of the same cost.
pub fn plain<C: Code>(room: Room, costs: Costs, kinds: &[C], start: usize, goal: usize) -> Result<PlainRoute, PlainRefusal> {
    PlainMemory::new(room.cells().unwrap_or(0)).plain(room, costs, kinds, start, goal)
}

/// The job sheet of a job's parts. Over sixteen sinks or 60,000 bytes, a list that is no whole number of records and a source of another
/// length are [`Refusal::Sheet`]; what the router would refuse with 2 to 5 is refused so here.
pub fn write_sheet(parts: &Parts) -> Result<Sheet, Refusal> {
    SheetMemory::for_parts(parts).write(parts)
}

/// The tree of the one net that a sheet describes.
pub fn route_tree(sheet: &Sheet) -> Result<Tree, Refusal> {
    TreeMemory::for_sheet(sheet).route_tree(sheet)
}

/// The same in a mode: [`Mode::Published`] is what [`route_tree`] has.
pub fn route_tree_in(mode: Mode, sheet: &Sheet) -> Result<Tree, Refusal> {
    TreeMemory::for_sheet(sheet).route_tree_in(mode, sheet)
}

/// The same, and where a sink wasn't reached why: which one, and what may be said of it.
pub fn why_tree(mode: Mode, sheet: &Sheet) -> TreeWhy {
    TreeWhyMemory::for_sheet(sheet).why_tree(mode, sheet)
}

/// Several nets over one room: a sheet each, all with the sides and the blocks of the first, in the same order. They are routed in this order, each
/// clear of the nets before it and of the ends of all others; nothing is ripped up, so the first net that is refused ends the list. Then they are
/// laid into the room: supports, wire and repeaters, net by net. A room can be laid in which a net has no wire: its cells may hold the supports of
/// a net before it. Without a sheet the refusal is that of net 0, [`Refusal::Sheet`].
pub fn route_nets(mode: Mode, sheets: &[Sheet]) -> Result<Nets, NetRefusal> {
    let list: Vec<u8> = sheets.iter().flat_map(|sheet| sheet.bytes()).copied().collect();
    NetsMemory::for_list(&list).route_nets(mode, &list)
}

/// Where the repeaters of a net stand, ascending: the runs of all sinks at the run limit, and only then the tails, each at its sink's limit.
/// The branches are cells, each step one of the twelve moves; they need be neither as many as the sinks nor end at their terminals, and a
/// sink that none of them joins to the source is passed over. Of a tree's branches these are the tree's repeaters.
pub fn place_repeaters(room: Room, run: u8, source: &Endpoint, sinks: &[Sink], branches: &[Vec<u32>]) -> Result<Vec<u32>, Refusal> {
    let net = Net::new(room, run, source, sinks, branches);
    PlanMemory::new(room.cells().unwrap_or(0)).place_repeaters(&net)
}

/// The text of `setblock` commands that lays a room in the game, one line for each cell that isn't Air. Kinds and facings are one for
/// each cell in number order: slices of [`Kind`] and [`Facing`], or of bytes.
pub fn write_function<K: Code, F: Code>(room: Room, kinds: &[K], facings: &[F]) -> Result<Vec<u8>, Refusal> {
    WriteMemory::new(LINE_BYTES * kinds.len()).write(room, kinds, facings)
}

/// The room of these sides that a text lays: only what [`write_function`] could have written is read.
pub fn read_function(room: Room, text: &[u8]) -> Result<LaidRoom, Refusal> {
    ReadMemory::new(room.cells().unwrap_or(0)).read(room, text)
}
