//! The job sheet: read from bytes, judged (numbers 1 to 5), and written.

use crate::Refusal;
use crate::room::{Config, Place, Room, facing, kind, port};
use crate::version::{USUAL_RUN, USUAL_TAIL, Version, is_limit};

pub const MOST_BYTES: usize = 60_000;
pub const MOST_SINKS: usize = 16;
/// The version byte and the four-byte length of the rest.
pub const HEAD: usize = 5;

/// A sheet as it is handed to the tree. Nothing is promised about its bytes.
#[derive(Clone, Debug, Eq, PartialEq)]
pub struct Sheet {
    /// Places in the lent queue.
    pub queue: u32,
    /// Cells in the lent branch buffer.
    pub branch: u32,
    /// The length of each other lent buffer.
    pub lent: u32,
    pub bytes: Vec<u8>,
}

#[derive(Clone, Debug, Eq, PartialEq)]
pub enum TreeAnswer {
    Refused(Refusal),
    Tree {
        /// In sheet order.
        branches: Vec<Vec<u16>>,
        occupied: u32,
        /// Ascending.
        repeaters: Vec<u16>,
    },
}

impl TreeAnswer {
    /// The number of a refusal; 0 for a tree.
    pub fn number(&self) -> u8 {
        match self {
            Self::Refused(refusal) => refusal.number,
            Self::Tree { .. } => 0,
        }
    }
}

#[derive(Clone, Copy, Debug, Eq, PartialEq)]
pub struct Block {
    pub node: u16,
    pub at: [u16; 3],
    pub kind: u8,
    pub facing: u8,
}

/// The source, or where a sink is.
#[derive(Clone, Copy, Debug, Eq, PartialEq)]
pub struct Port {
    pub at: [u16; 3],
    pub kind: u8,
    pub facing: u8,
}

#[derive(Clone, Copy, Debug, Eq, PartialEq)]
pub struct Sink {
    pub port: Port,
    /// Steps after the last repeater that it bears, if it is Wire.
    pub tail: u8,
}

impl From<Port> for Sink {
    /// A sink with the usual tail limit.
    fn from(port: Port) -> Self {
        let tail = USUAL_TAIL;
        Self { port, tail }
    }
}

/// What a sheet says. `read` gives it unjudged; after `judge` every position lies in the room, and every code and limit is good.
#[derive(Clone, Debug, Eq, PartialEq)]
pub struct Job {
    /// That of the sheet it was read from, or in which it is to be written. One that carries no limits has the usual ones.
    pub version: Version,
    pub sides: [u16; 3],
    pub config: Config,
    /// Steps past the last reset that need no repeater.
    pub run: u8,
    pub blocks: Vec<Block>,
    pub conductors: Vec<[u16; 3]>,
    pub clearances: Vec<[u16; 3]>,
    pub terminals: Vec<[u16; 3]>,
    pub reserved: Vec<[u16; 3]>,
    pub source: Port,
    pub sinks: Vec<Sink>,
}

impl Job {
    /// Number 1 over the whole sheet; nothing else is judged yet.
    pub fn read(bytes: &[u8]) -> Result<Self, Refusal> {
        Self::read_of(Version::KNOWN, bytes)
    }

    /// The same where just these versions are known.
    pub fn read_of(known: &[Version], bytes: &[u8]) -> Result<Self, Refusal> {
        let version = bytes.first().and_then(|first| {
            let mut versions = known.iter();
            versions.find(|version| version.number == *first)
        });
        let job = version
            .filter(|_| bytes.len() <= MOST_BYTES)
            .and_then(|version| {
                let (version, rest) = (*version, &bytes[1..]);
                Reader { version, rest }.job()
            });
        job.ok_or(Refusal::bare(1))
    }

    /// Number 2, then 3 for the config and the run limit, then the records in sheet order; inside a record 4 before 5, and of a sink then
    /// 3 for its tail limit. A room has at most so many cells, and as many as the version allows.
    pub fn judge(&self, most_cells: usize) -> Result<Room, Refusal> {
        let room = Room::within(&self.version.ranges, self.sides)
            .filter(|room| room.cells() <= most_cells)
            .ok_or(Refusal::bare(2))?;
        good(3, self.version.config_in(&self.config, &room))?;
        good(3, is_limit(self.run.into()))?;
        for block in &self.blocks {
            inside(&room, block.at)?;
            let kind = (kind::AIR + 1..=kind::LAST).contains(&block.kind);
            good(5, kind && block.facing <= facing::LAST)?;
        }
        for at in self.position_lists().into_iter().flatten() {
            inside(&room, *at)?;
        }
        judge_port(&room, &self.source)?;
        for sink in &self.sinks {
            judge_port(&room, &sink.port)?;
            good(3, is_limit(sink.tail.into()))?;
        }
        Ok(room)
    }

    /// The lowest of these versions that holds the job.
    pub fn lowest(&self, versions: &[Version]) -> Version {
        let tails = self.sinks.iter().map(|sink| u32::from(sink.tail));
        let limits: Vec<_> = [u32::from(self.run)].into_iter().chain(tails).collect();
        Version::lowest(versions, self.sides.map(u32::from), &self.config, &limits)
    }

    /// Whether all limits are 12 and 8, as the Rust has them.
    pub fn has_usual_limits(&self) -> bool {
        self.run == USUAL_RUN && self.sinks.iter().all(|sink| sink.tail == USUAL_TAIL)
    }

    /// The four lists of bare positions, in sheet order.
    pub fn position_lists(&self) -> [&Vec<[u16; 3]>; 4] {
        [
            &self.conductors,
            &self.clearances,
            &self.terminals,
            &self.reserved,
        ]
    }

    /// The sheet's bytes in its version. Lists are at most 65,535 long, sinks at most 255, and each number fits its bytes.
    pub fn bytes(&self) -> Vec<u8> {
        let rest = self.rest();
        let mut bytes = vec![self.version.number];
        bytes.extend((rest.len() as u32).to_be_bytes());
        bytes.extend(rest);
        bytes
    }

    fn rest(&self) -> Vec<u8> {
        let mut rest = Vec::new();
        self.put_position(&mut rest, self.sides);
        let Config {
            node_limit,
            horizontal,
            stair,
            support,
        } = self.config;
        for number in [node_limit, horizontal, stair, support] {
            rest.extend(number.to_be_bytes());
        }
        self.put_limit(&mut rest, self.run);
        rest.extend((self.blocks.len() as u16).to_be_bytes());
        for block in &self.blocks {
            rest.extend(block.node.to_be_bytes());
            self.put_position(&mut rest, block.at);
            rest.extend([block.kind, block.facing]);
        }
        for list in self.position_lists() {
            rest.extend((list.len() as u16).to_be_bytes());
            for at in list {
                self.put_position(&mut rest, *at);
            }
        }
        self.put_port(&mut rest, &self.source);
        rest.push(self.sinks.len() as u8);
        for sink in &self.sinks {
            self.put_port(&mut rest, &sink.port);
            self.put_limit(&mut rest, sink.tail);
        }
        rest
    }

    fn put_position(&self, bytes: &mut Vec<u8>, at: [u16; 3]) {
        for number in at {
            bytes.extend(&number.to_be_bytes()[2 - self.version.coordinate..]);
        }
    }

    fn put_port(&self, bytes: &mut Vec<u8>, port: &Port) {
        self.put_position(bytes, port.at);
        bytes.extend([port.kind, port.facing]);
    }

    fn put_limit(&self, bytes: &mut Vec<u8>, limit: u8) {
        if self.version.limits {
            bytes.push(limit);
        }
    }
}

fn inside(room: &Room, at: [u16; 3]) -> Result<(), Refusal> {
    good(4, room.cell(Place::from(at)).is_some())
}

fn judge_port(room: &Room, port: &Port) -> Result<(), Refusal> {
    inside(room, port.at)?;
    good(5, port.kind <= port::LAST && port.facing <= facing::LAST)
}

fn good(number: u8, holds: bool) -> Result<(), Refusal> {
    holds.then_some(()).ok_or(Refusal::bare(number))
}

/// The bytes behind the version that are not read yet. None means that the sheet has number 1.
struct Reader<'a> {
    version: Version,
    rest: &'a [u8],
}

impl Reader<'_> {
    fn job(&mut self) -> Option<Job> {
        if self.number()? as usize != self.rest.len() {
            return None;
        }
        let job = Job {
            version: self.version,
            sides: self.position()?,
            config: Config {
                node_limit: self.number()?,
                horizontal: self.number()?,
                stair: self.number()?,
                support: self.number()?,
            },
            run: self.limit(USUAL_RUN)?,
            blocks: self.list(Self::block)?,
            conductors: self.list(Self::position)?,
            clearances: self.list(Self::position)?,
            terminals: self.list(Self::position)?,
            reserved: self.list(Self::position)?,
            source: self.port()?,
            sinks: self.sinks()?,
        };
        self.rest.is_empty().then_some(job)
    }

    fn take<const N: usize>(&mut self) -> Option<[u8; N]> {
        let (taken, rest) = self.rest.split_first_chunk()?;
        self.rest = rest;
        Some(*taken)
    }

    fn number(&mut self) -> Option<u32> {
        self.take().map(u32::from_be_bytes)
    }

    fn coordinate(&mut self) -> Option<u16> {
        match self.version.coordinate {
            1 => self.take().map(|[byte]| byte.into()),
            _ => self.take().map(u16::from_be_bytes),
        }
    }

    fn position(&mut self) -> Option<[u16; 3]> {
        Some([self.coordinate()?, self.coordinate()?, self.coordinate()?])
    }

    /// The limit that stands here, in a version that carries limits; else the usual one.
    fn limit(&mut self, usual: u8) -> Option<u8> {
        match self.version.limits {
            true => self.take().map(|[limit]| limit),
            false => Some(usual),
        }
    }

    fn list<T>(&mut self, record: fn(&mut Self) -> Option<T>) -> Option<Vec<T>> {
        let count = u16::from_be_bytes(self.take()?);
        (0..count).map(|_| record(self)).collect()
    }

    fn block(&mut self) -> Option<Block> {
        let node = u16::from_be_bytes(self.take()?);
        let at = self.position()?;
        let [kind, facing] = self.take()?;
        Some(Block {
            node,
            at,
            kind,
            facing,
        })
    }

    fn port(&mut self) -> Option<Port> {
        let at = self.position()?;
        let [kind, facing] = self.take()?;
        Some(Port { at, kind, facing })
    }

    fn sink(&mut self) -> Option<Sink> {
        let port = self.port()?;
        let tail = self.limit(USUAL_TAIL)?;
        Some(Sink { port, tail })
    }

    fn sinks(&mut self) -> Option<Vec<Sink>> {
        let [count] = self.take()?;
        if usize::from(count) > MOST_SINKS {
            return None;
        }
        (0..count).map(|_| self.sink()).collect()
    }
}
