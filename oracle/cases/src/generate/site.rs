//! Where the ports of a random job and the wires of other nets are put.

use crate::rng::Rng;
use crate::room::{DOWN, Offset, Place, Room, SIDEWAYS, facing, kind, kind_at, port, sideways};
use crate::samples::{block, wire};
use crate::sheet::{Block, Job, Port};

/// Rooms in which a tree takes the published Rust seconds, and in which blocks would fill the sheet.
pub fn is_large(room: &Room) -> bool {
    room.cells() > 3_000
}

pub fn at(place: Place) -> [u16; 3] {
    [place.x, place.y, place.z].map(|side| side as u16)
}

/// Kinds with a keepout and kinds that look like it.
const DEVICES: [u8; 8] = [
    kind::REPEATER,
    kind::REPEATER,
    kind::REPEATER,
    kind::REDSTONE_TORCH,
    kind::LEVER,
    kind::REDSTONE_BLOCK,
    kind::COMPARATOR,
    kind::BUTTON,
];

/// A block that belongs to a port; its place comes later.
fn port_block(rng: &mut Rng, kind: u8) -> Block {
    block(rng.pick(&[0, 1, 9]), [0; 3], kind)
}

/// A room and what stands in it while a job is put together.
pub struct Site<'a> {
    pub room: &'a Room,
    pub kinds: Vec<u8>,
}

impl Site<'_> {
    fn kind(&self, place: Place) -> u8 {
        kind_at(&self.kinds, self.room.cell(place))
    }

    fn is_air(&self, place: Place) -> bool {
        self.kind(place) == kind::AIR
    }

    /// Air above something that bears wire.
    fn is_ground(&self, place: Place) -> bool {
        let bears = [kind::SOLID, kind::TRANSPARENT, kind::REDSTONE_BLOCK];
        self.is_air(place) && bears.contains(&self.kind(place.plus(DOWN)))
    }

    fn random_place(&self, rng: &mut Rng) -> Place {
        self.room.place(rng.below(self.room.cells()))
    }

    /// The source and some sinks.
    pub fn add_ports(&mut self, rng: &mut Rng, job: &mut Job, sinks: usize) {
        let terminal = self.random_ground(rng, None);
        job.source = self.random_port(rng, &mut job.blocks, terminal);
        for _ in 0..sinks {
            let sink = self.random_sink(rng, job);
            job.sinks.push(sink.into());
        }
    }

    /// The same within a few cells, so that many nets find their place in one room.
    pub fn add_near_ports(&mut self, rng: &mut Rng, job: &mut Job, sinks: usize) {
        let terminal = self.random_ground(rng, None);
        job.source = self.random_port(rng, &mut job.blocks, terminal);
        for _ in 0..sinks {
            let near = self.near(rng, terminal, [3, 1, 3]);
            let sink = self.random_port(rng, &mut job.blocks, near);
            job.sinks.push(sink.into());
        }
    }

    fn random_sink(&mut self, rng: &mut Rng, job: &mut Job) -> Port {
        let last = job.sinks.last().map_or(&job.source, |sink| &sink.port).at;
        match rng.below(10) {
            // Two branches that meet in one terminal make a ring.
            0 => {
                let facing = self.open_facing(rng, Place::from(last));
                wire(last, facing.unwrap_or(facing::NONE))
            }
            // Sinks close to each other are in each other's way.
            1 | 2 => {
                let near = self.near(rng, Place::from(last), [2, 1, 2]);
                self.random_port(rng, &mut job.blocks, near)
            }
            _ => {
                let terminal = self.random_terminal(rng, Place::from(job.source.at));
                self.random_port(rng, &mut job.blocks, terminal)
            }
        }
    }

    /// A place for a sink's terminal: often the farther of two draws, which makes room for repeaters.
    fn random_terminal(&self, rng: &mut Rng, source: Place) -> Place {
        let draws = [(); 2].map(|()| self.random_ground(rng, Some(source)));
        let farther = draws.into_iter().max_by_key(|place| place.distance(source));
        farther.filter(|_| rng.percent(60)).unwrap_or(draws[0])
    }

    /// Of some draws the first that is on the ground, else the last; sometimes the first that is Air.
    fn random_ground(&self, rng: &mut Rng, source: Option<Place>) -> Place {
        let anywhere = rng.percent(15);
        let mut place = self.random_site(rng, source);
        for _ in 0..60 {
            if self.is_ground(place) || anywhere && self.is_air(place) {
                break;
            }
            place = self.random_site(rng, source);
        }
        place
    }

    /// In a large room a sink is near the source.
    fn random_site(&self, rng: &mut Rng, source: Option<Place>) -> Place {
        match source.filter(|_| is_large(self.room)) {
            Some(source) => self.near(rng, source, [5, 2, 5]),
            None => self.random_place(rng),
        }
    }

    /// A port of either kind, mostly with the given terminal.
    fn random_port(&mut self, rng: &mut Rng, blocks: &mut Vec<Block>, terminal: Place) -> Port {
        let plain = (port::WIRE, rng.pick(&[0, 0, 0, 5, 6]), terminal);
        let (kind, facing, place) = match rng.below(20) {
            0..9 => plain,
            9..13 => self
                .open_facing(rng, terminal)
                .map_or(plain, |facing| (port::WIRE, facing, terminal)),
            13..19 => self.block_power(rng, blocks, terminal).unwrap_or(plain),
            _ => {
                let kind = rng.pick(&[port::WIRE, port::BLOCK_POWER]);
                (kind, rng.below(7) as u8, self.random_place(rng))
            }
        };
        if kind == port::WIRE && rng.percent(10) {
            self.build(blocks, place, port_block(rng, kind::REDSTONE_WIRE));
        }
        Port {
            at: at(place),
            kind,
            facing,
        }
    }

    /// A horizontal facing towards Air, if there is one.
    fn open_facing(&self, rng: &mut Rng, terminal: Place) -> Option<u8> {
        let mut facings = [facing::NORTH, facing::EAST, facing::SOUTH, facing::WEST];
        rng.shuffle(&mut facings);
        facings.into_iter().find(|facing| {
            sideways(*facing).is_some_and(|offset| self.is_air(terminal.plus(offset)))
        })
    }

    /// A BlockPower port whose terminal is given: a Solid block behind it, which looks at it. None if there is no room.
    fn block_power(
        &mut self,
        rng: &mut Rng,
        blocks: &mut Vec<Block>,
        terminal: Place,
    ) -> Option<(u8, u8, Place)> {
        let facing = self.open_facing(rng, terminal)?;
        let Offset(dx, _, dz) = sideways(facing)?;
        let behind = terminal.plus(Offset(-dx, 0, -dz));
        self.room.cell(behind)?;
        self.build(blocks, behind, port_block(rng, kind::SOLID));
        Some((port::BLOCK_POWER, facing, behind))
    }

    /// Puts a block into an Air cell.
    fn build(&mut self, blocks: &mut Vec<Block>, place: Place, block: Block) {
        let cell = self.room.cell(place);
        if let Some(cell) = cell.filter(|cell| self.kinds[*cell] == kind::AIR) {
            self.kinds[cell] = block.kind;
            blocks.push(Block {
                at: at(place),
                ..block
            });
        }
    }

    /// Blocks with a keepout, and repeaters that face a block, mostly Solid, of their own node or of another.
    pub fn add_devices(&mut self, rng: &mut Rng, blocks: &mut Vec<Block>) {
        for _ in 0..rng.between(1, 3) {
            let place = self.random_ground(rng, None);
            let device = Block {
                node: rng.below(4) as u16,
                at: [0; 3],
                kind: rng.pick(&DEVICES),
                facing: rng.between(1, 4) as u8,
            };
            let output = Block {
                node: device.node + rng.pick(&[0, 0, 1]),
                kind: rng.pick(&[kind::SOLID, kind::SOLID, kind::TRANSPARENT, kind::PISTON]),
                facing: facing::NONE,
                ..device
            };
            self.build(blocks, place, device);
            if let Some(offset) = sideways(device.facing) {
                self.build(blocks, place.plus(offset), output);
            }
        }
    }

    /// Wires of other nets, their clearances and terminals, and reserved cells; often near the ports of this net.
    pub fn add_other_nets(&self, rng: &mut Rng, job: &mut Job) {
        for _ in 0..rng.between(0, 2) {
            let mut place = self.random_near_port(rng, job);
            let (dx, dz) = rng.pick(&SIDEWAYS);
            for _ in 0..rng.pick(&[1, 1, 2, 4, 8]) {
                if self.room.cell(place).is_some() {
                    job.conductors.push(at(place));
                }
                place = place.plus(Offset(dx, 0, dz));
            }
        }
        for _ in 0..rng.between(0, 9) {
            let at = at(self.random_near_port(rng, job));
            let lists = [&mut job.clearances, &mut job.terminals, &mut job.reserved];
            lists[rng.below(3)].push(at);
        }
    }

    fn random_near_port(&self, rng: &mut Rng, job: &Job) -> Place {
        let port = job.sinks.get(rng.below(job.sinks.len() + 1));
        match rng.below(2) {
            0 => self.random_place(rng),
            _ => {
                let port = port.map_or(&job.source, |sink| &sink.port);
                self.near(rng, Place::from(port.at), [2, 1, 2])
            }
        }
    }

    /// A place of the room at most so far away along each axis.
    fn near(&self, rng: &mut Rng, from: Place, by: [i32; 3]) -> Place {
        let [x, y, z] = self.room.sides();
        let mut near = |at: i32, by: i32, side: i32| {
            let offset = rng.between(0, 2 * by as usize) as i32 - by;
            (at + offset).clamp(0, side - 1)
        };
        Place::new(
            near(from.x, by[0], x),
            near(from.y, by[1], y),
            near(from.z, by[2], z),
        )
    }
}
