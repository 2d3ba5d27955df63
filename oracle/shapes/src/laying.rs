//! Routed nets as `materialize_multinet` takes them, and the room that it makes of them.

use std::collections::BTreeMap;

use cases::laying::{LaidRoom, Overlap};
use cases::room::{Place, Room, port};
use cases::sheet::{self, Job, Port};
use cases::tree::Net;

use crate::cells::{PhysicalCell, PlacedCell, PortKind, RotationY};
use crate::logic::GateKind;
use crate::multinet::{MultiNetError, MultiNetRouting, NetId, RoutedNet, materialize_multinet};
use crate::physical::{CellId, Endpoint, PhysicalNode, PlacementCircuit};
use crate::world::{Block, BlockKind, Facing, Pos, World};

/// The shell's node comes after every node that a sheet can name.
const SHELL_NODE: u32 = 65_536;

const KINDS: [BlockKind; 13] = [
    BlockKind::Air,
    BlockKind::Solid,
    BlockKind::Transparent,
    BlockKind::RedstoneWire,
    BlockKind::RedstoneTorch,
    BlockKind::Repeater,
    BlockKind::Comparator,
    BlockKind::Lever,
    BlockKind::Button,
    BlockKind::PressurePlate,
    BlockKind::RedstoneLamp,
    BlockKind::RedstoneBlock,
    BlockKind::Piston,
];

const FACINGS: [Option<Facing>; 7] = [
    None,
    Some(Facing::North),
    Some(Facing::East),
    Some(Facing::South),
    Some(Facing::West),
    Some(Facing::Up),
    Some(Facing::Down),
];

/// What the published Rust makes of a list, in a room with its Solid shell; owners are no part of it.
pub fn lay_published(room: &Room, list: &[(Job, Net)]) -> Result<LaidRoom, Overlap> {
    match Laying::new(room, list).run() {
        Ok(world) => Ok(seen(room, &world)),
        Err(MultiNetError::NetOverlap { pos, second, .. }) => Err(Overlap {
            net: second.0 as usize,
            cell: room
                .cell(Place::new(pos.x, pos.y, pos.z))
                .expect("nets are inside"),
        }),
        Err(error) => panic!("an error of another kind: {error:?}"),
    }
}

/// A list's nets as `materialize_multinet` takes them.
pub struct Laying {
    circuit: PlacementCircuit,
    routing: MultiNetRouting,
}

impl Laying {
    pub fn new(room: &Room, list: &[(Job, Net)]) -> Self {
        let blocks = list.first().map_or(&[][..], |(job, _)| &job.blocks);
        let nets = list.iter().enumerate();
        let nets = nets.map(|(number, (job, net))| routed(room, number, job, net));
        Self {
            circuit: circuit(room, blocks),
            routing: MultiNetRouting {
                nets: nets.map(|net| (net.id, net)).collect(),
            },
        }
    }

    /// Runs `materialize_multinet`.
    pub fn run(&self) -> Result<World, MultiNetError> {
        materialize_multinet(&self.circuit, &self.routing)
    }
}

fn pos(place: Place) -> Pos {
    Pos::new(place.x, place.y, place.z)
}

fn routed(room: &Room, number: usize, job: &Job, net: &Net) -> RoutedNet {
    let at = |cell: &usize| pos(room.place(*cell));
    RoutedNet {
        id: NetId(number as u32),
        source: endpoint(&job.source),
        sinks: job.sinks.iter().map(|sink| endpoint(&sink.port)).collect(),
        branches: net
            .branches
            .iter()
            .map(|branch| branch.iter().map(at).collect())
            .collect(),
        occupied: net.occupied.iter().map(at).collect(),
        repeaters: net.repeaters.iter().map(at).collect(),
    }
}

pub fn endpoint(port: &Port) -> Endpoint {
    let kind = match port.kind {
        port::WIRE => PortKind::Wire,
        _ => PortKind::BlockPower,
    };
    let facing = FACINGS[usize::from(port.facing)];
    PlacementCircuit::boundary("", pos(Place::from(port.at)), kind, facing)
}

/// Blocks by their nodes, and the shell as a node of its own.
pub fn circuit(room: &Room, blocks: &[sheet::Block]) -> PlacementCircuit {
    let mut nodes: BTreeMap<u32, World> = BTreeMap::from([(SHELL_NODE, shell(room))]);
    for record in blocks {
        let mut block = Block::new(KINDS[usize::from(record.kind)]);
        block.facing = FACINGS[usize::from(record.facing)];
        let node = nodes.entry(record.node.into()).or_default();
        node.set(pos(Place::from(record.at)), block);
    }
    let mut circuit = PlacementCircuit::new();
    for (number, world) in nodes {
        circuit.cells.insert(CellId(number), node(number, world));
    }
    circuit
}

fn shell(room: &Room) -> World {
    let [x, y, z] = room.sides();
    let mut world = World::new();
    for x in -1..=x {
        for y in -1..=y {
            for z in -1..=z {
                if room.cell(Place::new(x, y, z)).is_none() {
                    world.set(Pos::new(x, y, z), Block::new(BlockKind::Solid));
                }
            }
        }
    }
    world
}

fn node(number: u32, world: World) -> PhysicalNode {
    PhysicalNode {
        id: CellId(number),
        logical_kind: GateKind::Input,
        placed: PlacedCell {
            cell: PhysicalCell {
                name: String::new(),
                world,
                inputs: Vec::new(),
                outputs: Vec::new(),
            },
            origin: Pos::new(0, 0, 0),
            rotation: RotationY::R0,
        },
    }
}

fn seen(room: &Room, world: &World) -> LaidRoom {
    let number = |cell| {
        let kind = world.kind_at(pos(room.place(cell)));
        KINDS.iter().position(|known| *known == kind)
    };
    let facing = |cell| {
        let block = world.get(pos(room.place(cell)));
        let facing = block.and_then(|block| block.facing);
        FACINGS.iter().position(|known| *known == facing)
    };
    let cells = 0..room.cells();
    LaidRoom {
        kinds: cells
            .clone()
            .map(|cell| number(cell).expect("every kind has a number") as u8)
            .collect(),
        facings: cells
            .map(|cell| facing(cell).expect("every facing has a number") as u8)
            .collect(),
        owners: vec![0; room.cells()],
    }
}
