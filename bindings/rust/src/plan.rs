//! The repeaters of a net in one call: the runs of all sinks, and only then the tails.

use crate::answer::Refusal;
use crate::ffi::dustroute_place_repeaters;
use crate::job::{Endpoint, Room, Sink};
use crate::lent::{detail, marked};
use crate::sheet::{end, sink};

/// How many values a plan comes to.
pub const PLAN_VALUES: usize = 2;

/// A net as numbers: its ends as [`crate::Parts`] has them, and its branches one behind another. Nothing is promised of them: a number may be
/// out of range and a list cut short, and is refused then. [`Net::new`] gives those of ends and branches.
#[derive(Clone, Debug, Eq, PartialEq)]
pub struct Net {
    pub sides: [usize; 3],
    pub run: u32,
    pub source: Vec<u16>,
    pub sinks: Vec<u16>,
    pub branches: Vec<u32>,
    pub lengths: Vec<u32>,
}

impl Net {
    /// The net from a source to sinks along such branches, at a run limit; each sink has its tail limit.
    pub fn new(room: Room, run: u8, source: &Endpoint, sinks: &[Sink], branches: &[Vec<u32>]) -> Self {
        Self {
            sides: [room.wide, room.high, room.deep].map(usize::from),
            run: run.into(),
            source: end(source).to_vec(),
            sinks: sinks.iter().flat_map(sink).collect(),
            branches: branches.concat(),
            lengths: branches.iter().map(|branch| branch.len() as u32).collect(),
        }
    }
}

/// What the planning is lent: `repeaters` and `values` are its output, the others work memory.
#[derive(Clone, Debug, Eq, PartialEq)]
pub struct PlanMemory {
    pub repeaters: Vec<u8>,
    pub classes: Vec<u8>,
    pub known: Vec<u32>,
    pub previous: Vec<u32>,
    pub path: Vec<u32>,
    pub values: Vec<u64>,
}

impl PlanMemory {
    /// Memory for a room of so many cells.
    pub fn new(cells: usize) -> Self {
        Self {
            repeaters: vec![0; cells],
            classes: vec![0; cells],
            known: vec![0; cells],
            previous: vec![0; cells],
            path: vec![0; cells],
            values: vec![0; PLAN_VALUES],
        }
    }

    /// The cells of the net's repeaters, ascending. A refusal by 2 to 6 leaves the memory as it was, `values` included.
    pub fn place_repeaters(&mut self, net: &Net) -> Result<Vec<u32>, Refusal> {
        match self.call(net) {
            0 => Ok(marked(&self.repeaters)),
            refused => Err(Refusal::of(refused, detail(refused, &self.values))),
        }
    }

    /// The bare call: the number comes back, 0 for a plan, and the memory is as the router leaves it.
    pub fn call(&mut self, net: &Net) -> u32 {
        let [wide, high, deep] = net.sides;
        // SAFETY: each pointer and length is that of a slice that lives through the call, and no two of them overlap. The router has
        // no requirement on what it is handed, and reads and writes within the slices alone.
        unsafe {
            dustroute_place_repeaters(
                wide,
                high,
                deep,
                net.run,
                net.source.as_ptr(),
                net.source.len(),
                net.sinks.as_ptr(),
                net.sinks.len(),
                net.branches.as_ptr(),
                net.branches.len(),
                net.lengths.as_ptr(),
                net.lengths.len(),
                self.repeaters.as_mut_ptr(),
                self.repeaters.len(),
                self.classes.as_mut_ptr(),
                self.classes.len(),
                self.known.as_mut_ptr(),
                self.known.len(),
                self.previous.as_mut_ptr(),
                self.previous.len(),
                self.path.as_mut_ptr(),
                self.path.len(),
                self.values.as_mut_ptr(),
                self.values.len(),
            )
        }
    }
}
