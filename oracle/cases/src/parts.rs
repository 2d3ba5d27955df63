//! docs/MORE-RULES.md, Writing a sheet: the parts of a job as 16-bit numbers, and the sheet that they come to, written by the rules a
//! second time.

use crate::Refusal;
use crate::room::{Config, facing, kind, port};
use crate::sheet::{Block, Job, MOST_BYTES, MOST_SINKS, Port, Sink};
use crate::version::{Version, is_limit};

/// So many numbers a record: node, x, y, z, kind, facing; x, y, z; x, y, z, port kind, facing; the same and the tail limit.
pub const BLOCK: usize = 6;
pub const POSITION: usize = 3;
pub const SOURCE: usize = 5;
pub const SINK: usize = 6;

/// A job's parts as they are handed to the writer, and how long the lent output is. Nothing is promised about them.
#[derive(Clone, Debug, Eq, PartialEq)]
pub struct Parts {
    pub sides: [u32; 3],
    pub config: Config,
    pub run: u32,
    pub blocks: Vec<u16>,
    /// Conductors, clearances, terminals and reserved cells.
    pub lists: [Vec<u16>; 4],
    pub source: Vec<u16>,
    pub sinks: Vec<u16>,
    pub lent: u32,
}

#[derive(Clone, Debug, Eq, PartialEq)]
pub enum PartsAnswer {
    /// The bytes of the sheet.
    Sheet(Vec<u8>),
    Refused(Refusal),
}

impl PartsAnswer {
    pub fn number(&self) -> u8 {
        match self {
            Self::Sheet(_) => 0,
            Self::Refused(refusal) => refusal.number,
        }
    }
}

impl Parts {
    /// The parts of a job, with an output of just its length.
    pub fn of(job: &Job) -> Self {
        let mut parts = Self {
            sides: job.sides.map(u32::from),
            config: job.config,
            run: job.run.into(),
            blocks: job.blocks.iter().flat_map(block_numbers).collect(),
            lists: job
                .position_lists()
                .map(|list| list.as_flattened().to_vec()),
            source: port_numbers(&job.source).to_vec(),
            sinks: job.sinks.iter().flat_map(sink_numbers).collect(),
            lent: 0,
        };
        parts.lent = parts.size() as u32;
        parts
    }

    /// The version in which these parts are written: the lowest that holds them.
    pub fn version(&self) -> Version {
        self.version_of(Version::KNOWN)
    }

    /// The same where just these versions are known.
    pub fn version_of(&self, known: &[Version]) -> Version {
        let tails = self.sinks.chunks_exact(SINK).map(|sink| sink[SOURCE]);
        let limits: Vec<_> = [self.run].into_iter().chain(tails.map(u32::from)).collect();
        Version::lowest(known, self.sides, &self.config, &limits)
    }

    /// The length of the sheet of these parts. Numbers that are no whole record don't count.
    pub fn size(&self) -> usize {
        self.size_in(&self.version())
    }

    fn size_in(&self, version: &Version) -> usize {
        let positions: usize = self.lists.iter().map(|list| list.len() / POSITION).sum();
        let (blocks, sinks) = (self.blocks.len() / BLOCK, self.sinks.len() / SINK);
        version.size(blocks, positions, sinks)
    }

    pub fn plain_answer(&self) -> PartsAnswer {
        self.plain_answer_of(Version::KNOWN)
    }

    /// The same where just these versions are known.
    pub fn plain_answer_of(&self, known: &[Version]) -> PartsAnswer {
        let version = self.version_of(known);
        let is_short = (self.lent as usize) < self.size_in(&version);
        match self.judge(&version) {
            Err(refusal) => PartsAnswer::Refused(refusal),
            Ok(()) if is_short => PartsAnswer::Refused(Refusal::bare(6)),
            Ok(()) => PartsAnswer::Sheet(self.bytes(&version)),
        }
    }

    /// Number 1 by the lengths, then 2, 3 for the config and the run limit, and the records in sheet order; inside a record 4 before 5,
    /// and of a sink then 3 for its tail limit. All at the version that is written.
    fn judge(&self, version: &Version) -> Result<(), Refusal> {
        refused_unless(1, self.is_formed(version))?;
        refused_unless(2, version.ranges.sides_in(self.sides))?;
        refused_unless(3, self.config.is_within(&version.ranges))?;
        let cells = self.sides.iter().map(|side| *side as usize).product();
        refused_unless(3, self.config.product_in(&version.ranges, cells))?;
        refused_unless(3, is_limit(self.run))?;
        for block in self.blocks.chunks(BLOCK) {
            self.judge_position(&block[1..4])?;
            let is_kind = u16::from(kind::AIR) < block[4] && block[4] <= u16::from(kind::LAST);
            refused_unless(5, is_kind && block[5] <= u16::from(facing::LAST))?;
        }
        for position in self.lists.iter().flat_map(|list| list.chunks(POSITION)) {
            self.judge_position(position)?;
        }
        self.judge_end(&self.source)?;
        for sink in self.sinks.chunks(SINK) {
            self.judge_end(sink)?;
            refused_unless(3, is_limit(sink[SOURCE].into()))?;
        }
        Ok(())
    }

    fn is_formed(&self, version: &Version) -> bool {
        let whole = |list: &Vec<u16>, record: usize| list.len() % record == 0;
        whole(&self.blocks, BLOCK)
            && self.lists.iter().all(|list| whole(list, POSITION))
            && self.source.len() == SOURCE
            && whole(&self.sinks, SINK)
            && self.sinks.len() <= MOST_SINKS * SINK
            && self.size_in(version) <= MOST_BYTES
    }

    fn judge_end(&self, end: &[u16]) -> Result<(), Refusal> {
        self.judge_position(&end[..3])?;
        let is_port = end[3] <= u16::from(port::LAST);
        refused_unless(5, is_port && end[4] <= u16::from(facing::LAST))
    }

    fn judge_position(&self, at: &[u16]) -> Result<(), Refusal> {
        let mut axes = at.iter().zip(self.sides);
        refused_unless(4, axes.all(|(at, side)| u32::from(*at) < side))
    }

    /// The bytes of parts without fault: each number fits its bytes.
    fn bytes(&self, version: &Version) -> Vec<u8> {
        let mut rest = Vec::new();
        let sides = self.sides.map(|side| side as u16);
        put_position(version, &mut rest, &sides);
        let config = &self.config;
        for number in [
            config.node_limit,
            config.horizontal,
            config.stair,
            config.support,
        ] {
            rest.extend(number.to_be_bytes());
        }
        if version.limits {
            rest.push(self.run as u8);
        }
        rest.extend(((self.blocks.len() / BLOCK) as u16).to_be_bytes());
        for block in self.blocks.chunks(BLOCK) {
            rest.extend(block[0].to_be_bytes());
            put_position(version, &mut rest, &block[1..4]);
            rest.extend(low_bytes(&block[4..]));
        }
        for list in &self.lists {
            rest.extend(((list.len() / POSITION) as u16).to_be_bytes());
            put_position(version, &mut rest, list);
        }
        put_position(version, &mut rest, &self.source[..3]);
        rest.extend(low_bytes(&self.source[3..]));
        rest.push((self.sinks.len() / SINK) as u8);
        for sink in self.sinks.chunks(SINK) {
            let last = SOURCE + usize::from(version.limits);
            put_position(version, &mut rest, &sink[..3]);
            rest.extend(low_bytes(&sink[3..last]));
        }
        let mut bytes = vec![version.number];
        bytes.extend((rest.len() as u32).to_be_bytes());
        bytes.extend(rest);
        bytes
    }
}

/// Coordinates, in so many bytes as the version has for each.
fn put_position(version: &Version, bytes: &mut Vec<u8>, at: &[u16]) {
    for number in at {
        bytes.extend(&number.to_be_bytes()[2 - version.coordinate..]);
    }
}

fn refused_unless(number: u8, holds: bool) -> Result<(), Refusal> {
    holds.then_some(()).ok_or(Refusal::bare(number))
}

fn low_bytes(numbers: &[u16]) -> impl Iterator<Item = u8> {
    numbers.iter().map(|number| *number as u8)
}

fn block_numbers(block: &Block) -> [u16; BLOCK] {
    let [x, y, z] = block.at;
    [block.node, x, y, z, block.kind.into(), block.facing.into()]
}

fn port_numbers(port: &Port) -> [u16; SOURCE] {
    let [x, y, z] = port.at;
    [x, y, z, port.kind.into(), port.facing.into()]
}

fn sink_numbers(sink: &Sink) -> [u16; SINK] {
    let [x, y, z, kind, facing] = port_numbers(&sink.port);
    [x, y, z, kind, facing, sink.tail.into()]
}
