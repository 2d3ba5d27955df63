//! Costs at which the published Rust's sums wrap in a release build, and what the proved search answers to them.

use cases::room::{Config, Room, kind};
use cases::samples::default_search;
use dustroute::lent::SEARCH_VALUES;
use oracle::{Search, cell_at, pos_of, router_config, world_of};
use published::routing::astar_route;

use crate::proved;

/// A stair so dear that nobody should take one: two of them come round to nothing in 32 bits.
const STAIR: u32 = 2_147_483_648;

/// A row of three cells under a second one, with a block in the middle of the lower: the only way is over it, by two stairs.
const SIDES: [u16; 3] = [3, 2, 1];

pub fn show() {
    let mut case = default_search(SIDES, 0, 4, &[(2, kind::SOLID)]);
    case.config = Config {
        stair: STAIR,
        support: 0,
        ..Config::DEFAULT
    };
    println!("room 3x2x1, Solid at cell 2, from cell 0 to cell 4, costs 10, {STAIR}, 0");
    println!("published Rust, release build: {}", published(&case));
    let cells = case.kinds.len();
    let mut lent = proved::search_memory(cells, 24 * cells, SEARCH_VALUES, 0);
    let number = proved::search(&case, &mut lent);
    println!("the proved search: number {number}");
    case.config.stair = 1_000_000;
    let number = proved::search(&case, &mut lent);
    println!(
        "the proved search at the dearest stair, 1000000: number {number}, cost {}, cells {:?}",
        lent.values[2],
        &lent.path[..lent.values[1] as usize]
    );
}

fn published(case: &Search) -> String {
    let room = Room::new(case.sides, case.kinds.len()).expect("a lawful room");
    let world = world_of(&room, &case.kinds);
    let [start, goal] = [case.start, case.goal].map(|cell| pos_of(&room, cell as usize));
    match astar_route(&world, start, goal, router_config(&case.config)) {
        Ok(route) => {
            let cells = route.path.iter().filter_map(|at| cell_at(&room, *at));
            let cells: Vec<usize> = cells.collect();
            format!("cost {}, {cells:?}", route.cost)
        }
        Err(error) => format!("{error:?}"),
    }
}
