//! Rooms and jobs as the published Rust takes them, and its answers as cell numbers.

use std::collections::{BTreeMap, BTreeSet};
use std::panic::{AssertUnwindSafe, catch_unwind};

use cases::room::{Config, Place, Room, port};
use cases::sheet::{Job, Port};
use published::cells::{PhysicalCell, PlacedCell, PortKind, RotationY};
use published::logic::GateKind;
use published::multinet::{MultiNetError, NetId, RoutedNet, route_net_tree};
use published::physical::{CellId, Endpoint, PhysicalNode, PlacementCircuit};
use published::planning;
use published::port_realization::{
    PortRealizationError, realize_sink_endpoint, terminal_for_endpoint,
};
use published::routing::RouterConfig;
use published::routing_resources::RoutingResources;
use published::world::{Block, BlockKind, Facing, Pos, World};

/// The shell's node comes after every node that a sheet can name, so that it never decides number 7.
const SHELL_NODE: u32 = 65_536;

const KINDS: [BlockKind; 13] = [
    BlockKind::Air,
    BlockKind::Solid,
    BlockKind::Transparent,
    BlockKind::RedstoneWire,
    BlockKind::RedstoneTorch,
    BlockKind::Repeater,
    BlockKind::Comparator,
    BlockKind::Lever,
    BlockKind::Button,
    BlockKind::PressurePlate,
    BlockKind::RedstoneLamp,
    BlockKind::RedstoneBlock,
    BlockKind::Piston,
];

const FACINGS: [Option<Facing>; 7] = [
    None,
    Some(Facing::North),
    Some(Facing::East),
    Some(Facing::South),
    Some(Facing::West),
    Some(Facing::Up),
    Some(Facing::Down),
];

pub fn pos(place: Place) -> Pos {
    Pos::new(place.x, place.y, place.z)
}

pub fn pos_of(room: &Room, cell: usize) -> Pos {
    pos(room.place(cell))
}

fn pos_at(at: [u16; 3]) -> Pos {
    pos(Place::from(at))
}

/// The cell at a position of the Rust; none outside.
pub fn cell_at(room: &Room, pos: Pos) -> Option<usize> {
    room.cell(Place::new(pos.x, pos.y, pos.z))
}

pub fn router_config(config: &Config) -> RouterConfig {
    RouterConfig {
        max_nodes: config.node_limit as usize,
        horizontal_cost: config.horizontal,
        stair_cost: config.stair,
        new_support_cost: config.support,
    }
}

/// Everything outside is Solid: a shell one cell thick, edges and corners included.
fn shell(room: &Room) -> World {
    let [x, y, z] = room.sides();
    let mut world = World::new();
    for x in -1..=x {
        for y in -1..=y {
            for z in -1..=z {
                if room.cell(Place::new(x, y, z)).is_none() {
                    world.set(Pos::new(x, y, z), Block::new(BlockKind::Solid));
                }
            }
        }
    }
    world
}

/// A room of kinds in its shell, for one search.
pub fn world_of(room: &Room, kinds: &[u8]) -> World {
    let mut world = shell(room);
    for (cell, kind) in kinds.iter().enumerate() {
        world.set(pos_of(room, cell), Block::new(KINDS[usize::from(*kind)]));
    }
    world
}

/// The kind of a number.
pub fn kind_of(number: u8) -> BlockKind {
    KINDS[usize::from(number)]
}

/// The room's kinds as they stand in a world.
pub fn kinds_in(room: &Room, world: &World) -> Vec<u8> {
    let number = |cell| {
        let kind = world.kind_at(pos_of(room, cell));
        KINDS.iter().position(|known| *known == kind)
    };
    (0..room.cells())
        .map(|cell| number(cell).expect("every kind has a number") as u8)
        .collect()
}

/// The number of a facing.
pub fn facing_number(facing: Option<Facing>) -> u8 {
    let place = FACINGS.iter().position(|known| *known == facing);
    place.expect("every facing has a number") as u8
}

/// A job's blocks, a node each, and the shell as a node of its own.
fn circuit_of(room: &Room, job: &Job) -> PlacementCircuit {
    let mut nodes: BTreeMap<u32, World> = BTreeMap::from([(SHELL_NODE, shell(room))]);
    for record in &job.blocks {
        let mut block = Block::new(KINDS[usize::from(record.kind)]);
        block.facing = FACINGS[usize::from(record.facing)];
        let node = nodes.entry(record.node.into()).or_default();
        node.set(pos_at(record.at), block);
    }
    let mut circuit = PlacementCircuit::new();
    for (number, world) in nodes {
        circuit.cells.insert(CellId(number), node(number, world));
    }
    circuit
}

/// Blocks arrive already transformed: no rotation, origin zero.
fn node(number: u32, world: World) -> PhysicalNode {
    PhysicalNode {
        id: CellId(number),
        logical_kind: GateKind::Input,
        placed: PlacedCell {
            cell: PhysicalCell {
                name: String::new(),
                world,
                inputs: Vec::new(),
                outputs: Vec::new(),
            },
            origin: Pos::new(0, 0, 0),
            rotation: RotationY::R0,
        },
    }
}

pub fn endpoint(port: &Port) -> Endpoint {
    let kind = match port.kind {
        port::WIRE => PortKind::Wire,
        _ => PortKind::BlockPower,
    };
    let facing = FACINGS[usize::from(port.facing)];
    PlacementCircuit::boundary("", pos_at(port.at), kind, facing)
}

fn positions(list: &[[u16; 3]]) -> BTreeSet<Pos> {
    list.iter().map(|at| pos_at(*at)).collect()
}

/// A judged job as `route_net_tree` takes it.
pub struct PublishedJob {
    circuit: PlacementCircuit,
    source: Endpoint,
    sinks: Vec<Endpoint>,
    others: RoutingResources,
    reserved: BTreeSet<Pos>,
    config: RouterConfig,
}

impl PublishedJob {
    pub fn new(room: &Room, job: &Job) -> Self {
        Self {
            circuit: circuit_of(room, job),
            source: endpoint(&job.source),
            sinks: job.sinks.iter().map(|sink| endpoint(&sink.port)).collect(),
            others: RoutingResources::from_conductors(
                positions(&job.conductors),
                positions(&job.clearances),
                positions(&job.terminals),
            ),
            reserved: positions(&job.reserved),
            config: router_config(&job.config),
        }
    }

    /// Runs `route_net_tree`.
    pub fn route(&self) -> Result<RoutedNet, MultiNetError> {
        self.route_beside(0, &RoutingResources::default(), &BTreeSet::new())
    }

    /// The same as a net of a list: beside the job's own lists, what the nets before hold and the other jobs' protected cells.
    pub fn route_beside(
        &self,
        net: u32,
        held: &RoutingResources,
        protected: &BTreeSet<Pos>,
    ) -> Result<RoutedNet, MultiNetError> {
        route_net_tree(
            &self.circuit,
            NetId(net),
            self.source.clone(),
            self.sinks.clone(),
            &self.others.clone().merged(held),
            &(&self.reserved | protected),
            self.config,
        )
    }

    pub fn circuit(&self) -> &PlacementCircuit {
        &self.circuit
    }
}

/// The repeaters that the published Rust's two planning functions give at a job's limits: the runs of all sinks, and then, on the growing
/// set, each sink's tail in sheet order.
pub fn planned_repeaters(
    job: &Job,
    branches: &[Vec<Pos>],
) -> Result<BTreeSet<Pos>, PortRealizationError> {
    let source = terminal_for_endpoint(&endpoint(&job.source))?;
    let sinks: Vec<_> = job.sinks.iter().map(|sink| endpoint(&sink.port)).collect();
    let realized: Vec<_> = sinks
        .iter()
        .map(realize_sink_endpoint)
        .collect::<Result<_, _>>()?;
    let terminals: Vec<_> = realized.iter().map(|sink| sink.terminal).collect();
    let own: BTreeSet<_> = realized
        .iter()
        .flat_map(|sink| [sink.terminal, sink.approach])
        .chain([source])
        .collect();
    let mut repeaters = planning::runs(source, &terminals, branches, &own, job.run.into());
    for (sink, end) in job.sinks.iter().zip(&sinks) {
        let limit = sink.tail.into();
        planning::tail(source, end, branches, &own, &mut repeaters, limit);
    }
    Ok(repeaters)
}

/// Runs the published Rust; a panic in it, such as a sum that would wrap, comes back as an error.
pub fn guarded<T>(run: impl FnOnce() -> T) -> Result<T, String> {
    catch_unwind(AssertUnwindSafe(run)).map_err(|_| "the published Rust panicked".into())
}

#[cfg(test)]
mod tests {
    use super::*;
    use published::routing::astar_route;

    #[test]
    fn number_order_is_pos_order() {
        for sides in [[3, 4, 5], [1, 64, 2], [7, 1, 9]] {
            let room = Room::new(sides, 1_000).unwrap();
            let places: Vec<Pos> = (0..room.cells()).map(|cell| pos_of(&room, cell)).collect();
            assert!(places.is_sorted_by(|a, b| a < b));
            let cells = places.iter().map(|pos| cell_at(&room, *pos));
            assert!(cells.eq((0..room.cells()).map(Some)));
        }
    }

    #[test]
    fn kinds_follow_the_order_of_block_kind() {
        for (number, kind) in KINDS.into_iter().enumerate() {
            assert_eq!(kind as usize, number);
        }
    }

    /// Facings and their offsets, by the Rust and by `cases`.
    #[test]
    fn facings_point_the_same_way() {
        for (code, facing) in (0..).zip(FACINGS) {
            let theirs = facing.and_then(Facing::horizontal_offset);
            let ours = cases::room::sideways(code).map(|by| Pos::new(by.0, by.1, by.2));
            assert_eq!(theirs, ours);
        }
    }

    #[test]
    fn the_shell_is_one_cell_thick_with_edges_and_corners() {
        let room = Room::new([2, 3, 4], 24).unwrap();
        let shell = shell(&room);
        assert_eq!(shell.positions().count(), 4 * 5 * 6 - 24);
        assert_eq!(
            shell.bounds(),
            Some((Pos::new(-1, -1, -1), Pos::new(2, 3, 4)))
        );
        assert!(
            shell
                .iter()
                .all(|(_, block)| block.kind == BlockKind::Solid)
        );
    }

    /// A stand-in that is reached, and a sum that would wrap: both stop the published Rust, and that is noticed.
    #[test]
    fn a_panic_of_the_published_rust_is_caught() {
        assert!(guarded(|| BlockKind::Solid.properties()).is_err());
        let room = Room::new([3, 1, 1], 3).unwrap();
        let world = world_of(&room, &[0; 3]);
        let run = |horizontal_cost| {
            let config = RouterConfig {
                horizontal_cost,
                ..RouterConfig::default()
            };
            guarded(|| astar_route(&world, pos_of(&room, 0), pos_of(&room, 2), config))
        };
        assert!(run(u32::MAX / 2).is_ok_and(|answer| answer.is_ok()));
        assert!(run(u32::MAX / 2 + 1).is_err());
    }
}
