//! Routed nets laid into their room, one after another in list order: the plain laying, with what each cell is and faces, and whose it is.

use std::collections::BTreeSet;

use crate::repeaters::from_source;
use crate::room::{DOWN, Place, Room, facing, kind, port};
use crate::sheet::Job;
use crate::tree::{Ends, Net, realize};

/// A room that nets are laid into.
#[derive(Clone, Debug, Eq, PartialEq)]
pub struct LaidRoom {
    pub kinds: Vec<u8>,
    pub facings: Vec<u8>,
    /// 0, or one more than the number of the net that occupies the cell.
    pub owners: Vec<u32>,
}

/// Number 16: the first net that meets a lower one, and its least such cell.
#[derive(Clone, Copy, Debug, Eq, PartialEq)]
pub struct Overlap {
    pub net: usize,
    pub cell: usize,
}

/// All nets of a list over the blocks of its first job, or the first overlap. The jobs were judged, and each net is its job's.
pub fn lay_all(room: &Room, list: &[(Job, Net)]) -> Result<LaidRoom, Overlap> {
    let blocks = list.first().map_or(&[][..], |(job, _)| &job.blocks);
    let mut laid = LaidRoom {
        kinds: vec![kind::AIR; room.cells()],
        facings: vec![facing::NONE; room.cells()],
        owners: vec![0; room.cells()],
    };
    for block in blocks {
        let cell = room
            .cell(Place::from(block.at))
            .expect("a judged block is inside");
        laid.put(cell, block.kind, block.facing);
    }
    for (number, (job, net)) in list.iter().enumerate() {
        laid.own(number, net)?;
        laid.lay(room, job, net);
    }
    Ok(laid)
}

impl LaidRoom {
    fn put(&mut self, cell: usize, what: u8, faces: u8) {
        self.kinds[cell] = what;
        self.facings[cell] = faces;
    }

    fn put_on_air(&mut self, cell: usize, what: u8) {
        if self.kinds[cell] == kind::AIR {
            self.put(cell, what, facing::NONE);
        }
    }

    fn own(&mut self, number: usize, net: &Net) -> Result<(), Overlap> {
        let held = |cell: &&usize| self.owners[**cell] != 0;
        if let Some(cell) = net.occupied.iter().find(held) {
            let cell = *cell;
            return Err(Overlap { net: number, cell });
        }
        for cell in &net.occupied {
            self.owners[*cell] = number as u32 + 1;
        }
        Ok(())
    }

    /// Supports and wire in number order, then the planned repeaters, then those of the BlockPower sinks in sheet order.
    fn lay(&mut self, room: &Room, job: &Job, net: &Net) {
        let ends = realize(job, room).expect("a routed net has its ends");
        let solid = bearing(room, job, &ends, net);
        for cell in &net.occupied {
            if let Some(below) = room.next(*cell, DOWN) {
                let support = match solid.contains(cell) {
                    true => kind::SOLID,
                    false => kind::TRANSPARENT,
                };
                self.put_on_air(below, support);
            }
            if !net.repeaters.contains(cell) {
                self.put_on_air(*cell, kind::REDSTONE_WIRE);
            }
        }
        let before = from_source(ends.source, &net.branches);
        for cell in &net.repeaters {
            self.put(*cell, kind::REPEATER, towards(room, before[cell], *cell));
        }
        for (sink, end) in job.sinks.iter().zip(&ends.sinks) {
            if sink.port.kind == port::BLOCK_POWER {
                self.put(end.terminal, kind::REPEATER, turned(sink.port.facing));
            }
        }
    }
}

/// The cells that rest on a Solid support: planned repeaters, terminals of BlockPower sinks, both ends of each stair.
fn bearing(room: &Room, job: &Job, ends: &Ends, net: &Net) -> BTreeSet<usize> {
    let mut cells = net.repeaters.clone();
    for (sink, end) in job.sinks.iter().zip(&ends.sinks) {
        if sink.port.kind == port::BLOCK_POWER {
            cells.insert(end.terminal);
        }
    }
    for step in net.branches.iter().flat_map(|branch| branch.windows(2)) {
        if room.place(step[0]).y != room.place(step[1]).y {
            cells.extend(step);
        }
    }
    cells
}

/// The facing from a cell to a flat neighbour. A planned repeater always has one: its path was straight there.
fn towards(room: &Room, from: usize, to: usize) -> u8 {
    let [from, to] = [from, to].map(|cell| room.place(cell));
    match (to.x - from.x, to.y - from.y, to.z - from.z) {
        (0, 0, -1) => facing::NORTH,
        (1, 0, 0) => facing::EAST,
        (0, 0, 1) => facing::SOUTH,
        (-1, 0, 0) => facing::WEST,
        _ => panic!("a planned repeater without a direction"),
    }
}

/// The facing that looks the other way.
fn turned(side: u8) -> u8 {
    match side {
        facing::NORTH => facing::SOUTH,
        facing::EAST => facing::WEST,
        facing::SOUTH => facing::NORTH,
        _ => facing::EAST,
    }
}
