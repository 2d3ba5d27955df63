//! What comes back: a route or a tree, or the refusal that is due, as docs/RULES.md, Numbers that come back, has it.

use std::fmt;

/// A cost in tenths.
#[derive(Clone, Copy, Debug, Eq, Ord, PartialEq, PartialOrd)]
pub struct Cost(pub u32);

/// A count of expanded cells.
#[derive(Clone, Copy, Debug, Eq, Ord, PartialEq, PartialOrd)]
pub struct Nodes(pub u32);

/// The answer of a search: its cells from start to goal, what they cost, and how many cells were expanded. The cost is `steps`
/// and `supports` together, and `supports` is `laid` times the support cost: one new support for each cell but the start that
/// has Air beneath. See docs/DIFFERENCES.md for what a builder fetches.
#[derive(Clone, Debug, Eq, PartialEq)]
pub struct Route {
    pub path: Vec<u32>,
    pub cost: Cost,
    pub expanded: Nodes,
    pub steps: Cost,
    pub supports: Cost,
    pub laid: u32,
}

/// The answer of the plain engine: a cheapest way's cells from start to goal, and what they cost.
#[derive(Clone, Debug, Eq, PartialEq)]
pub struct PlainRoute {
    pub path: Vec<u32>,
    pub cost: Cost,
}

/// How many cells lawful steps lead to, the start included.
#[derive(Clone, Copy, Debug, Eq, Ord, PartialEq, PartialOrd)]
pub struct Reached(pub u32);

/// The answer of a job.
#[derive(Clone, Debug, Eq, PartialEq)]
pub struct Tree {
    /// Each sink's branch in sheet order, from the cell where it leaves the tree to the sink's terminal.
    pub branches: Vec<Vec<u32>>,
    /// The cells that the tree occupies, ascending.
    pub occupied: Vec<u32>,
    /// The cells that hold a repeater, ascending.
    pub repeaters: Vec<u32>,
}

/// Program `route`'s three kinds of line.
impl fmt::Display for Tree {
    fn fmt(&self, out: &mut fmt::Formatter) -> fmt::Result {
        writeln!(out, "net {} {}", self.branches.len(), self.occupied.len())?;
        for branch in &self.branches {
            write_line(out, "branch", branch)?;
        }
        write_line(out, "repeaters", &self.repeaters)
    }
}

fn write_line(out: &mut fmt::Formatter, word: &str, cells: &[u32]) -> fmt::Result {
    write!(out, "{word}")?;
    for cell in cells {
        write!(out, " {cell}")?;
    }
    writeln!(out)
}

/// One of a net's ends: its source, or a sink by its place in the sheet, from 1.
#[derive(Clone, Copy, Debug, Eq, PartialEq)]
pub enum End {
    Source,
    Sink(u32),
}

/// Why there is no route, no sheet, no tree, no nets, no text or no room.
#[derive(Clone, Copy, Debug, Eq, PartialEq)]
pub enum Refusal {
    /// 1: the sheet's length, version or counts, bytes left over, over 16 sinks; a job that is too long for a sheet; of a list also other sides
    /// or other blocks than its first sheet has.
    Sheet,
    /// 2: a side or the number of cells is out of range.
    Sides,
    /// 3: a cost or the node limit is out of range.
    Config,
    /// 4: a position, or an end of a search, is outside the room.
    Position,
    /// 5: an unknown code, Air in a block record, or a facing that its kind can't have in a function file.
    Code,
    /// 6: a buffer is too short, or a search's kinds are not one for each cell.
    Buffer,
    /// 7: two blocks in one cell.
    Overlap { cell: u32 },
    /// 8: a BlockPower end without a horizontal facing.
    PortFacing(End),
    /// 9: a terminal or an approach outside the room.
    EndOutside(End),
    /// 10: the start, else the goal, is not routeable.
    NotRouteable { cell: u32 },
    /// 11: there is no route.
    NoRoute(Nodes),
    /// 12: the node limit was passed.
    LimitPassed(Nodes),
    /// 13: a push was due and the queue was full.
    QueueFull(Nodes),
    /// 14: no way was found from a sink to the tree. That doesn't say that there is none: [`crate::why_tree`] says more.
    NoGoal { approach: u32 },
    /// 15: the branches exceed the branch buffer.
    BranchesFull { sink: u32 },
    /// 16: a net of a list lies in a cell that one before it occupies.
    NetOverlap { cell: u32 },
    /// 18: a function file's text is longer than its buffer.
    TextShort,
    /// 19: no function file of the room has this line there; lines count from 1.
    BadLine { line: u32 },
}

impl Refusal {
    /// The refusal of a number and its detail. The router returns no other number and no detail that doesn't fit 32 bits.
    pub(crate) fn of(number: u32, detail: u64) -> Self {
        let detail = u32::try_from(detail).expect("a detail is a cell, a count or a place");
        match number {
            1 => Self::Sheet,
            2 => Self::Sides,
            3 => Self::Config,
            4 => Self::Position,
            5 => Self::Code,
            6 => Self::Buffer,
            7 => Self::Overlap { cell: detail },
            8 => Self::PortFacing(End::of(detail)),
            9 => Self::EndOutside(End::of(detail)),
            10 => Self::NotRouteable { cell: detail },
            11 => Self::NoRoute(Nodes(detail)),
            12 => Self::LimitPassed(Nodes(detail)),
            13 => Self::QueueFull(Nodes(detail)),
            14 => Self::NoGoal { approach: detail },
            15 => Self::BranchesFull { sink: detail },
            16 => Self::NetOverlap { cell: detail },
            18 => Self::TextShort,
            19 => Self::BadLine { line: detail },
            _ => unreachable!("the router has no number {number}"),
        }
    }

    /// Program `route`'s line, without a newline.
    pub fn line(self) -> String {
        format!("refused {} {}", self.number(), self.detail())
    }

    pub fn number(self) -> u32 {
        match self {
            Self::Sheet => 1,
            Self::Sides => 2,
            Self::Config => 3,
            Self::Position => 4,
            Self::Code => 5,
            Self::Buffer => 6,
            Self::Overlap { .. } => 7,
            Self::PortFacing(_) => 8,
            Self::EndOutside(_) => 9,
            Self::NotRouteable { .. } => 10,
            Self::NoRoute(_) => 11,
            Self::LimitPassed(_) => 12,
            Self::QueueFull(_) => 13,
            Self::NoGoal { .. } => 14,
            Self::BranchesFull { .. } => 15,
            Self::NetOverlap { .. } => 16,
            Self::TextShort => 18,
            Self::BadLine { .. } => 19,
        }
    }

    pub fn detail(self) -> u32 {
        match self {
            Self::Sheet | Self::Sides | Self::Config | Self::Position | Self::Code | Self::Buffer | Self::TextShort => 0,
            Self::PortFacing(end) | Self::EndOutside(end) => end.place(),
            Self::NoRoute(nodes) | Self::LimitPassed(nodes) | Self::QueueFull(nodes) => nodes.0,
            Self::Overlap { cell } | Self::NotRouteable { cell } | Self::NetOverlap { cell } => cell,
            Self::NoGoal { approach } => approach,
            Self::BranchesFull { sink } => sink,
            Self::BadLine { line } => line,
        }
    }
}

/// Why the plain engine has no route.
#[derive(Clone, Copy, Debug, Eq, PartialEq)]
pub enum PlainRefusal {
    /// 2 to 6 and 10, as a search refuses.
    Refused(Refusal),
    /// 11: there is no route.
    NoRoute(Reached),
}

impl PlainRefusal {
    /// The refusal of a number and its detail.
    pub(crate) fn of(number: u32, detail: u64) -> Self {
        match Refusal::of(number, detail) {
            Refusal::NoRoute(count) => Self::NoRoute(Reached(count.0)),
            other => Self::Refused(other),
        }
    }

    pub fn number(self) -> u32 {
        match self {
            Self::Refused(refusal) => refusal.number(),
            Self::NoRoute(_) => 11,
        }
    }

    pub fn detail(self) -> u32 {
        match self {
            Self::Refused(refusal) => refusal.detail(),
            Self::NoRoute(reached) => reached.0,
        }
    }
}

impl fmt::Display for PlainRefusal {
    fn fmt(&self, out: &mut fmt::Formatter) -> fmt::Result {
        writeln!(out, "refused {} {}", self.number(), self.detail())
    }
}

impl std::error::Error for PlainRefusal {}

impl End {
    fn of(place: u32) -> Self {
        match place {
            0 => Self::Source,
            sink => Self::Sink(sink),
        }
    }

    fn place(self) -> u32 {
        match self {
            Self::Source => 0,
            Self::Sink(place) => place,
        }
    }
}

impl fmt::Display for End {
    fn fmt(&self, out: &mut fmt::Formatter) -> fmt::Result {
        match self {
            Self::Source => write!(out, "the source"),
            Self::Sink(place) => write!(out, "sink {place}"),
        }
    }
}

/// In words, without a newline; cells are numbers, and [`crate::Room::position`] tells where one is.
impl fmt::Display for Refusal {
    fn fmt(&self, out: &mut fmt::Formatter) -> fmt::Result {
        match self {
            Self::Sheet => write!(out, "the bytes are no job sheet, or the job is too long for one"),
            Self::Sides => write!(out, "a side is not 1 to 300, or the room has over 65,536 cells"),
            Self::Config => write!(
                out,
                "a cost is over 1,000,000, the node limit over 800,000, or a run or tail limit isn't 1 to 15; or the cells times the sum of the \
                 support cost and the dearer step are over 3,300,000,000"
            ),
            Self::Position => write!(out, "something stands outside the room"),
            Self::Code => write!(out, "an unknown kind, facing or port"),
            Self::Buffer => write!(out, "a lent buffer is too short, or kinds are not one for each cell"),
            Self::Overlap { cell } => write!(out, "two blocks stand in cell {cell}"),
            Self::PortFacing(end) => write!(out, "{end} is block-power and must face north, east, south or west"),
            Self::EndOutside(end) => write!(out, "the wire of {end} would lie outside the room"),
            Self::NotRouteable { cell } => write!(
                out,
                "cell {cell} holds neither air nor redstone wire: no wire can begin or end there"
            ),
            Self::NoRoute(nodes) => write!(out, "there is no way: {} cells were expanded", nodes.0),
            Self::LimitPassed(nodes) => write!(out, "the node limit was passed: {} cells were expanded", nodes.0),
            Self::QueueFull(nodes) => write!(out, "the queue was full after {} cells", nodes.0),
            Self::NoGoal { approach } => write!(out, "no way was found to the sink that is approached from cell {approach}"),
            Self::BranchesFull { sink } => write!(out, "the branches up to sink {sink} have more cells than the branch buffer holds"),
            Self::NetOverlap { cell } => write!(out, "another net of the list lies in cell {cell} already"),
            Self::TextShort => write!(out, "the text of the room is longer than the buffer"),
            Self::BadLine { line } => write!(out, "line {line} is none that a function file of this room has there"),
        }
    }
}

impl std::error::Error for Refusal {}
