//! The job sheet of a job's parts, told as 16-bit numbers.

use crate::answer::Refusal;
use crate::ffi::dustroute_write_sheet;
use crate::job::{Block, Config, Endpoint, Job, Position, Sheet, Sink};

/// How many values a written sheet comes to.
pub const WRITE_VALUES: usize = 2;

/// So many numbers a record: node, x, y, z, kind, facing; x, y, z; x, y, z, port kind, facing; the same and the tail limit.
pub const BLOCK_NUMBERS: usize = 6;
pub const POSITION_NUMBERS: usize = 3;
pub const END_NUMBERS: usize = 5;
pub const SINK_NUMBERS: usize = 6;

/// A job's parts as numbers, record behind record in the order of the sheet. Nothing is promised of them: a number may be out of range
/// and a list cut short, and is refused then. [`Job::parts`] gives those of a job.
#[derive(Clone, Debug, Eq, PartialEq)]
pub struct Parts {
    pub sides: [usize; 3],
    pub config: Config,
    pub run: u32,
    pub blocks: Vec<u16>,
    pub conductors: Vec<u16>,
    pub clearances: Vec<u16>,
    pub terminals: Vec<u16>,
    pub reserved: Vec<u16>,
    pub source: Vec<u16>,
    pub sinks: Vec<u16>,
}

impl Parts {
    /// How many bytes their sheet has, where each list is a whole number of records.
    pub fn sheet_bytes(&self) -> usize {
        let positions = [&self.conductors, &self.clearances, &self.terminals, &self.reserved];
        let positions: usize = positions.iter().map(|list| list.len() / POSITION_NUMBERS).sum();
        let place = if self.are_of_a_hall() { 6 } else { 3 };
        let limit = usize::from(self.are_of_a_hall() || !self.has_usual_limits());
        let blocks = (4 + place) * (self.blocks.len() / BLOCK_NUMBERS);
        let sinks = (place + 2 + limit) * (self.sinks.len() / SINK_NUMBERS);
        34 + 2 * place + limit + blocks + place * positions + sinks
    }

    /// Whether they are written as a sheet of version 3, which has two bytes for a side or a coordinate: a room, a cost or a node limit that
    /// the sheets before it couldn't have.
    pub fn are_of_a_hall(&self) -> bool {
        let Config { limit, horizontal, stair, support } = self.config;
        let small = self.sides.iter().all(|side| (1..=64).contains(side)) && self.sides.iter().product::<usize>() <= 16_384;
        !small || limit > 200_000 || [horizontal, stair, support].iter().any(|cost| *cost > 100_000)
    }

    /// Whether their limits are those of a sheet of version 1, which carries none: it means a run limit of 12 and tail limits of 8.
    pub fn has_usual_limits(&self) -> bool {
        let mut tails = self.sinks.chunks_exact(SINK_NUMBERS).map(|sink| sink[END_NUMBERS]);
        self.run == Job::USUAL_RUN.into() && tails.all(|tail| tail == Sink::USUAL_TAIL.into())
    }
}

impl Job {
    /// The job's parts as numbers.
    pub fn parts(&self) -> Parts {
        let room = self.room;
        let positions = |list: &Vec<Position>| list.iter().flat_map(|at| position(*at)).collect();
        Parts {
            sides: [room.wide, room.high, room.deep].map(usize::from),
            config: self.config,
            run: self.run.into(),
            blocks: self.blocks.iter().flat_map(block).collect(),
            conductors: positions(&self.conductors),
            clearances: positions(&self.clearances),
            terminals: positions(&self.terminals),
            reserved: positions(&self.reserved),
            source: end(&self.source).to_vec(),
            sinks: self.sinks.iter().flat_map(sink).collect(),
        }
    }

    /// The job as a sheet, by the proved writer: what was written is read as this job. It is of the lowest version that holds the job: 1
    /// where all limits are the usual ones, else 2, and 3 for a hall. A job that the router would refuse with a number from 1 to 5 isn't
    /// written, and the refusal is that number's; 1 is for over sixteen sinks or over 60,000 bytes.
    pub fn sheet(&self) -> Result<Sheet, Refusal> {
        crate::write_sheet(&self.parts())
    }
}

fn position(at: Position) -> [u16; POSITION_NUMBERS] {
    [at.x, at.y, at.z]
}

fn block(block: &Block) -> [u16; BLOCK_NUMBERS] {
    let [x, y, z] = position(block.at);
    [block.node, x, y, z, block.kind as u16, block.facing as u16]
}

pub(crate) fn end(end: &Endpoint) -> [u16; END_NUMBERS] {
    let [x, y, z] = position(end.at);
    [x, y, z, end.port as u16, end.facing as u16]
}

pub(crate) fn sink(sink: &Sink) -> [u16; SINK_NUMBERS] {
    let [x, y, z, port, facing] = end(&sink.end);
    [x, y, z, port, facing, sink.tail.into()]
}

/// What the writer is lent: both are its output.
#[derive(Clone, Debug, Eq, PartialEq)]
pub struct SheetMemory {
    pub sheet: Vec<u8>,
    pub values: Vec<u64>,
}

impl SheetMemory {
    /// Memory for a sheet of so many bytes.
    pub fn new(bytes: usize) -> Self {
        Self {
            sheet: vec![0; bytes],
            values: vec![0; WRITE_VALUES],
        }
    }

    /// Memory that suffices. Parts that are too long for a sheet need none.
    pub fn for_parts(parts: &Parts) -> Self {
        Self::new(parts.sheet_bytes().min(Sheet::MAX_BYTES))
    }

    /// The sheet of these parts. A refusal leaves the memory as it was, `values` included.
    pub fn write(&mut self, parts: &Parts) -> Result<Sheet, Refusal> {
        match self.call(parts) {
            0 => Ok(Sheet::from_bytes(&self.sheet[..self.values[1] as usize])),
            refused => Err(Refusal::of(refused, 0)),
        }
    }

    /// The bare call: the number comes back, 0 for a sheet, and the memory is as the library leaves it.
    pub fn call(&mut self, parts: &Parts) -> u32 {
        let [wide, high, deep] = parts.sides;
        let config = parts.config;
        // SAFETY: each pointer and length is that of a slice that lives through the call, and no two of them overlap. The library has
        // no requirement on what it is handed, and reads and writes within the slices alone.
        unsafe {
            dustroute_write_sheet(
                wide,
                high,
                deep,
                config.limit,
                config.horizontal,
                config.stair,
                config.support,
                parts.run,
                parts.blocks.as_ptr(),
                parts.blocks.len(),
                parts.conductors.as_ptr(),
                parts.conductors.len(),
                parts.clearances.as_ptr(),
                parts.clearances.len(),
                parts.terminals.as_ptr(),
                parts.terminals.len(),
                parts.reserved.as_ptr(),
                parts.reserved.len(),
                parts.source.as_ptr(),
                parts.source.len(),
                parts.sinks.as_ptr(),
                parts.sinks.len(),
                self.sheet.as_mut_ptr(),
                self.sheet.len(),
                self.values.as_mut_ptr(),
                self.values.len(),
            )
        }
    }
}
