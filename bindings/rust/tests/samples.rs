//! The samples a to l of docs/RULES.md, and the hex sheet of tools/README.md.

use cases::samples::{HEX_SHEET, HEX_SHEET_LINES};
use cases::text::parse_hex;
use dustroute::lent::{SearchMemory, places_that_suffice};
use dustroute::{
    Block, Config, Cost, End, Endpoint, Facing, Job, Kind, Nodes, Port, Position, Refusal, Room, Route, Sheet, route_tree, search,
};

fn room(wide: u16, high: u16, deep: u16) -> Room {
    Room { wide, high, deep }
}

/// A room of Air but for these cells.
fn kinds(room: Room, others: &[(usize, Kind)]) -> Vec<u8> {
    let mut kinds = vec![Kind::Air as u8; room.cells().unwrap()];
    others.iter().for_each(|(cell, kind)| kinds[*cell] = *kind as u8);
    kinds
}

fn at_usual_costs(room: Room, others: &[(usize, Kind)], start: usize, goal: usize) -> Result<Route, Refusal> {
    search(room, Config::default(), &kinds(room, others), start, goal)
}

/// A route whose cost is its two amounts together.
fn route(path: &[u32], [steps, supports, laid]: [u32; 3], expanded: u32) -> Result<Route, Refusal> {
    Ok(Route {
        path: path.to_vec(),
        cost: Cost(steps + supports),
        expanded: Nodes(expanded),
        steps: Cost(steps),
        supports: Cost(supports),
        laid,
    })
}

#[test]
fn cells_are_numbered_by_x_then_y_then_z() {
    let room = room(2, 3, 4);
    let positions = (0..2).flat_map(|x| (0..3).flat_map(move |y| (0..4).map(move |z| Position { x, y, z })));
    assert!(positions.clone().map(|at| room.cell(at)).eq(0..24));
    assert!((0..24).map(|cell| room.position(cell)).eq(positions.map(Some)));
    assert_eq!(room.position(24), None);
    let refused = Room {
        wide: 301,
        high: 1,
        deep: 1,
    };
    assert_eq!(refused.position(0), None);
}

#[test]
fn a_search_takes_kinds_and_bytes() {
    let row = room(3, 1, 1);
    let kinds = vec![Kind::Air, Kind::Solid, Kind::Air];
    let bytes = [0u8, 1, 0];
    let config = Config::default();
    assert_eq!(search(row, config, &kinds, 0, 2), search(row, config, &bytes, 0, 2));
    assert_eq!(search(row, config, &[Kind::Air; 3], 0, 2), route(&[0, 1, 2], [20, 0, 0], 2));
}

#[test]
fn refusals_are_words_without_a_newline() {
    let refused = search(room(3, 1, 1), Config::default(), &[Kind::Air, Kind::Solid, Kind::Air], 0, 2).unwrap_err();
    assert_eq!(refused.to_string(), "there is no way: 1 cells were expanded");
    assert_eq!(refused.line(), "refused 11 1");
    assert_eq!(
        Refusal::PortFacing(End::Source).to_string(),
        "the source is block-power and must face north, east, south or west"
    );
    assert_eq!(
        Refusal::EndOutside(End::Sink(2)).to_string(),
        "the wire of sink 2 would lie outside the room"
    );
}

#[test]
fn a_start_is_goal() {
    assert_eq!(at_usual_costs(room(1, 1, 1), &[], 0, 0), route(&[0], [0, 0, 0], 0));
}

#[test]
fn b_to_e_a_row_of_three() {
    let row = room(3, 1, 1);
    let limited = |limit| {
        search(
            row,
            Config {
                limit,
                ..Config::default()
            },
            &[0; 3],
            0,
            2,
        )
    };
    assert_eq!(at_usual_costs(row, &[], 0, 2), route(&[0, 1, 2], [20, 0, 0], 2));
    assert_eq!(limited(1), Err(Refusal::LimitPassed(Nodes(2))));
    assert_eq!(limited(2), route(&[0, 1, 2], [20, 0, 0], 2));
    assert_eq!(at_usual_costs(row, &[(1, Kind::Solid)], 0, 2), Err(Refusal::NoRoute(Nodes(1))));
    assert_eq!(
        at_usual_costs(row, &[(1, Kind::RedstoneWire)], 0, 2),
        Err(Refusal::NoRoute(Nodes(1)))
    );
    assert_eq!(
        at_usual_costs(row, &[(2, Kind::RedstoneWire)], 0, 2),
        route(&[0, 1, 2], [20, 0, 0], 2)
    );
    assert_eq!(
        at_usual_costs(row, &[(2, Kind::Lever)], 0, 2),
        Err(Refusal::NotRouteable { cell: 2 })
    );
}

#[test]
fn f_to_i_two_storeys() {
    let low = room(3, 2, 1);
    let dear = Config {
        support: 40,
        ..Config::default()
    };
    assert_eq!(at_usual_costs(low, &[(2, Kind::Solid)], 0, 4), route(&[0, 3, 4], [50, 0, 0], 2));
    assert_eq!(at_usual_costs(low, &[], 1, 5), route(&[1, 3, 5], [20, 30, 2], 4));
    assert_eq!(search(low, dear, &[0; 6], 1, 5), route(&[1, 2, 5], [50, 40, 1], 5));
    assert_eq!(at_usual_costs(low, &[(2, Kind::Lever)], 1, 5), Err(Refusal::NoRoute(Nodes(1))));
}

#[test]
fn j_queue_of_five_suffices() {
    let square = room(3, 1, 3);
    let with_places = |places| SearchMemory::new(9, places).search(square, Config::default(), &[0; 9], 4, 0);
    assert_eq!(with_places(5), route(&[4, 1, 0], [20, 0, 0], 3));
    assert_eq!(with_places(4), Err(Refusal::QueueFull(Nodes(2))));
}

/// A route's totals are the search's: the start's own support is not among them, and one may fall on the path itself.
#[test]
fn supports_are_counted() {
    let upright = room(2, 2, 1);
    assert_eq!(at_usual_costs(upright, &[], 1, 3), route(&[1, 3], [10, 15, 1], 1));
    let free = Config {
        support: 0,
        ..Config::default()
    };
    assert_eq!(search(upright, free, &[0; 4], 1, 3), route(&[1, 3], [10, 0, 1], 1));
    let steep = at_usual_costs(room(4, 4, 1), &[(2, Kind::Lever), (10, Kind::Lever)], 3, 5).unwrap();
    assert_eq!(steep.path, [3, 6, 9, 5]);
    assert_eq!((steep.steps, steep.supports, steep.laid), (Cost(60), Cost(45), 3));
    assert_eq!(steep.cost, Cost(105));
}

/// Memory that was lent for four values is made long enough for the totals.
#[test]
fn totals_find_room() {
    let mut memory = SearchMemory::new(4, 20);
    memory.values.truncate(5);
    let upright = room(2, 2, 1);
    let answer = memory.search(upright, Config::default(), &[0; 4], 1, 3);
    assert_eq!(answer, route(&[1, 3], [10, 15, 1], 1));
    memory.values.truncate(3);
    assert_eq!(memory.search(upright, Config::default(), &[0; 4], 1, 3), Err(Refusal::Buffer));
}

fn wire(x: u16) -> Endpoint {
    Endpoint {
        at: Position { x, y: 0, z: 0 },
        port: Port::Wire,
        facing: Facing::None,
    }
}

#[test]
fn k_repeaters_of_a_row() {
    let repeaters = |sink| {
        let job = Job::new(room(20, 1, 1), Config::default(), wire(0), vec![wire(sink)]);
        let tree = route_tree(&job.sheet().unwrap()).unwrap();
        assert_eq!(tree.branches, [(0..=u32::from(sink)).collect::<Vec<_>>()]);
        tree.repeaters
    };
    assert_eq!(repeaters(8), []);
    assert_eq!(repeaters(9), [1]);
    assert_eq!(repeaters(12), [4]);
    assert_eq!(repeaters(13), [12]);
    assert_eq!(repeaters(16), [13]);
}

#[test]
fn l_power_through_a_block() {
    let wall = Position { x: 5, y: 0, z: 0 };
    let sink = Endpoint {
        at: wall,
        port: Port::BlockPower,
        facing: Facing::West,
    };
    let mut job = Job::new(room(6, 1, 1), Config::default(), wire(0), vec![sink]);
    job.blocks.push(Block {
        node: 0,
        at: wall,
        kind: Kind::Solid,
        facing: Facing::None,
    });
    assert_eq!(route_tree(&job.sheet().unwrap()).unwrap().branches, [[0, 1, 2, 3, 4]]);
}

#[test]
fn hex_sheet_prints_as_program_route() {
    let job = Job::new(room(10, 1, 1), Config::default(), wire(0), vec![wire(9)]);
    let sheet = job.sheet().unwrap();
    assert_eq!(sheet, Sheet::from_bytes(parse_hex(HEX_SHEET).unwrap()));
    assert_eq!(route_tree(&sheet).unwrap().to_string(), HEX_SHEET_LINES);
}

#[test]
fn a_net_without_sinks_is_its_source() {
    let job = Job::new(room(2, 1, 1), Config::default(), wire(1), Vec::<Endpoint>::new());
    assert_eq!(route_tree(&job.sheet().unwrap()).unwrap().to_string(), "net 0 1\nrepeaters\n");
}

#[test]
fn a_refusal_prints_as_program_route() {
    let unreachable = Refusal::NoGoal { approach: 202 };
    assert_eq!(unreachable.line(), "refused 14 202");
}

#[test]
fn cheap_steps_get_a_queue_that_is_never_full() {
    let cheap = Config {
        horizontal: 1,
        stair: 3,
        support: 2,
        ..Config::default()
    };
    let big = room(8, 8, 8);
    assert!(places_that_suffice(512, cheap) > places_that_suffice(512, Config::default()));
    assert!(search(big, cheap, &[0; 512], 0, 511).is_ok());
}
