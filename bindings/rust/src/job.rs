//! A room, its costs, a [`Job`], and the job sheet: bytes that come from elsewhere, or a job that was written.

/// A room's sides. Each is 1 to 300, and the room has at most 65,536 cells; others are refused.
#[derive(Clone, Copy, Debug, Eq, PartialEq)]
pub struct Room {
    pub wide: u16,
    pub high: u16,
    pub deep: u16,
}

impl Room {
    pub const MAX_SIDE: u16 = 300;
    pub const MAX_CELLS: usize = 65_536;

    /// How many cells the room has, or none for a room that is refused.
    pub fn cells(self) -> Option<usize> {
        let sides = [self.wide, self.high, self.deep];
        let cells = sides.iter().map(|side| usize::from(*side)).product();
        let good = sides.iter().all(|side| (1..=Self::MAX_SIDE).contains(side)) && cells <= Self::MAX_CELLS;
        good.then_some(cells)
    }

    /// The number of the cell at a position.
    pub fn cell(self, at: Position) -> usize {
        let [x, y, z] = [at.x, at.y, at.z].map(usize::from);
        (x * usize::from(self.high) + y) * usize::from(self.deep) + z
    }

    /// The position of a cell, or none for a number that no cell of the room has.
    pub fn position(self, cell: usize) -> Option<Position> {
        let (high, deep) = (usize::from(self.high), usize::from(self.deep));
        let place = |number: usize| u16::try_from(number).ok();
        (cell < self.cells()?).then_some(())?;
        Some(Position {
            x: place(cell / deep / high)?,
            y: place(cell / deep % high)?,
            z: place(cell % deep)?,
        })
    }
}

#[derive(Clone, Copy, Debug, Eq, PartialEq)]
pub struct Position {
    pub x: u16,
    pub y: u16,
    pub z: u16,
}

/// The node limit, up to 800,000, and three costs in tenths, up to 1,000,000 each; the room's cells times the sum of the support cost and the
/// dearer step are at most 3,300,000,000. Others are refused.
#[derive(Clone, Copy, Debug, Eq, PartialEq)]
pub struct Config {
    pub limit: u32,
    pub horizontal: u32,
    pub stair: u32,
    pub support: u32,
}

impl Default for Config {
    /// The costs of the samples of docs/RULES.md.
    fn default() -> Self {
        Self {
            limit: 30_000,
            horizontal: 10,
            stair: 25,
            support: 15,
        }
    }
}

/// What a flat step, a stair and a new support cost, in tenths, as in [`Config`].
#[derive(Clone, Copy, Debug, Eq, PartialEq)]
pub struct Costs {
    pub horizontal: u32,
    pub stair: u32,
    pub support: u32,
}

impl Config {
    /// Its costs, without the node limit.
    pub fn costs(self) -> Costs {
        Costs {
            horizontal: self.horizontal,
            stair: self.stair,
            support: self.support,
        }
    }
}

impl Default for Costs {
    fn default() -> Self {
        Config::default().costs()
    }
}

/// What a cell holds.
#[derive(Clone, Copy, Debug, Eq, PartialEq)]
#[repr(u8)]
pub enum Kind {
    Air,
    Solid,
    Transparent,
    RedstoneWire,
    RedstoneTorch,
    Repeater,
    Comparator,
    Lever,
    Button,
    PressurePlate,
    RedstoneLamp,
    RedstoneBlock,
    Piston,
}

mod sealed {
    pub trait OneByte {}
    impl OneByte for u8 {}
    impl OneByte for super::Kind {}
    impl OneByte for super::Facing {}
}

/// What a search may be given for each cell: a [`Kind`], or a byte, which may be no kind's and is refused then. A function file
/// takes a [`Facing`] as well.
pub trait Code: sealed::OneByte + Copy {}
impl Code for u8 {}
impl Code for Kind {}
impl Code for Facing {}

/// The bytes of codes.
pub(crate) fn bytes_of<C: Code>(codes: &[C]) -> &[u8] {
    const { assert!(size_of::<C>() == 1) };
    // SAFETY: only u8, Kind and Facing are codes; each is one byte, and every byte of them is initialized.
    unsafe { std::slice::from_raw_parts(codes.as_ptr().cast(), codes.len()) }
}

#[derive(Clone, Copy, Debug, Eq, PartialEq)]
#[repr(u8)]
pub enum Facing {
    None,
    North,
    East,
    South,
    West,
    Up,
    Down,
}

#[derive(Clone, Copy, Debug, Eq, PartialEq)]
#[repr(u8)]
pub enum Port {
    Wire,
    BlockPower,
}

#[derive(Clone, Copy, Debug, Eq, PartialEq)]
pub struct Block {
    pub node: u16,
    pub at: Position,
    pub kind: Kind,
    pub facing: Facing,
}

/// The source, or where a sink is.
#[derive(Clone, Copy, Debug, Eq, PartialEq)]
pub struct Endpoint {
    pub at: Position,
    pub port: Port,
    pub facing: Facing,
}

/// A sink: its end, and how many steps past its last repeater it bears if it is Wire, 1 to 15; other limits are refused. With dust
/// inside what it feeds, 14 less that many leave a signal at the far end.
#[derive(Clone, Copy, Debug, Eq, PartialEq)]
pub struct Sink {
    pub end: Endpoint,
    pub tail: u8,
}

impl Sink {
    pub const USUAL_TAIL: u8 = 8;
}

impl From<Endpoint> for Sink {
    /// A sink with the usual tail limit.
    fn from(end: Endpoint) -> Self {
        let tail = Self::USUAL_TAIL;
        Self { end, tail }
    }
}

/// What a sheet says: the room with its blocks, what belongs to other nets, and this net's ends.
#[derive(Clone, Debug, Eq, PartialEq)]
pub struct Job {
    pub room: Room,
    pub config: Config,
    /// So many steps past the last repeater need none, 1 to 15; other limits are refused.
    pub run: u8,
    pub blocks: Vec<Block>,
    pub conductors: Vec<Position>,
    pub clearances: Vec<Position>,
    pub terminals: Vec<Position>,
    pub reserved: Vec<Position>,
    pub source: Endpoint,
    pub sinks: Vec<Sink>,
}

impl Job {
    pub const USUAL_RUN: u8 = 12;

    /// A job with nothing in its room but the net's ends, at the usual run limit. Sinks may be bare ends: then each has the usual tail
    /// limit.
    pub fn new<S: Into<Sink>>(room: Room, config: Config, source: Endpoint, sinks: Vec<S>) -> Self {
        Self {
            room,
            config,
            run: Self::USUAL_RUN,
            blocks: Vec::new(),
            conductors: Vec::new(),
            clearances: Vec::new(),
            terminals: Vec::new(),
            reserved: Vec::new(),
            source,
            sinks: sinks.into_iter().map(Into::into).collect(),
        }
    }
}

/// A job sheet's bytes. Nothing is promised of them: the router reads them, and refuses what is none.
#[derive(Clone, Debug, Eq, PartialEq)]
pub struct Sheet {
    bytes: Vec<u8>,
}

impl Sheet {
    pub const MAX_BYTES: usize = 60_000;
    pub const MAX_SINKS: usize = 16;
    /// Where the sides begin: behind the version and the length of the rest.
    const SIDES: usize = 5;
    /// The version that has two bytes for a side.
    const OF_HALLS: u8 = 3;

    pub fn from_bytes(bytes: impl Into<Vec<u8>>) -> Self {
        Self { bytes: bytes.into() }
    }

    pub fn bytes(&self) -> &[u8] {
        &self.bytes
    }

    /// The room that the sheet names, if its bytes go that far.
    pub fn room(&self) -> Option<Room> {
        let sides = self.bytes.get(Self::SIDES..)?;
        let [wide, high, deep] = if self.side_bytes() == 2 {
            let [a, b, c, d, e, f] = *sides.first_chunk()?;
            [[a, b], [c, d], [e, f]].map(u16::from_be_bytes)
        } else {
            let short: [u8; 3] = *sides.first_chunk()?;
            short.map(u16::from)
        };
        Some(Room { wide, high, deep })
    }

    /// How long a sheet says that it is, in bytes that begin with one and go that far.
    pub(crate) fn said_length(bytes: &[u8]) -> Option<usize> {
        let rest: [u8; 4] = *bytes.get(1..)?.first_chunk()?;
        Some(Self::SIDES + u32::from_be_bytes(rest) as usize)
    }

    /// How many sinks the sheet names, if it is just as long as that asks for: another is refused.
    pub(crate) fn sink_count(&self) -> Option<usize> {
        let position = 3 * self.side_bytes();
        let limit = usize::from(self.bytes.first()? != &1);
        // behind the sides stand four numbers, and then the run limit
        let mut at = Self::SIDES + position + 16 + limit;
        for record in [position + 4, position, position, position, position] {
            let count: [u8; 2] = *self.bytes.get(at..)?.first_chunk()?;
            at += 2 + record * usize::from(u16::from_be_bytes(count));
        }
        let source = position + 2;
        let sinks = usize::from(*self.bytes.get(at + source)?);
        (self.bytes.len() == at + source + 1 + sinks * (source + limit)).then_some(sinks)
    }

    fn side_bytes(&self) -> usize {
        if self.bytes.first() == Some(&Self::OF_HALLS) { 2 } else { 1 }
    }

    /// The config that the sheet names, if its bytes go that far.
    pub fn config(&self) -> Option<Config> {
        let number = |place: usize| {
            let config = Self::SIDES + 3 * self.side_bytes();
            let bytes = self.bytes.get(config + 4 * place..)?.first_chunk()?;
            Some(u32::from_be_bytes(*bytes))
        };
        Some(Config {
            limit: number(0)?,
            horizontal: number(1)?,
            stair: number(2)?,
            support: number(3)?,
        })
    }
}
