//! Random searches.

use super::damage::damage_search;
use super::terrain::random_terrain;
use super::{Profile, around, random_config, random_room};
use crate::rng::Rng;
use crate::room::{MOST_NODES, Room, kind};
use crate::search::Search;

/// Of 200 rooms of the mixed profile: tiny, small, middle, large.
const SHARES: [usize; 4] = [95, 83, 20, 2];

/// A random search; about one in eight is one that numbers 2 to 6 refuse.
pub fn random_search(rng: &mut Rng, profile: Profile) -> Search {
    damaged(rng, profile, 12)
}

/// A random search for the plain engine; about one in five is damaged.
pub fn random_plain_search(rng: &mut Rng, profile: Profile) -> Search {
    damaged(rng, profile, 20)
}

/// A random search; of a hundred so many are damaged.
fn damaged(rng: &mut Rng, profile: Profile, percent: usize) -> Search {
    let (room, mut case) = sound_search(rng, profile, |_, _, _, _| {});
    if rng.percent(percent) {
        damage_search(rng, &room, &mut case);
    }
    case
}

/// A random search that no number 2 to 6 refuses. `build` may change what stands in the room, but not at the two ends.
pub fn sound_search(
    rng: &mut Rng,
    profile: Profile,
    build: impl FnOnce(&mut Rng, &Room, &mut [u8], [usize; 2]),
) -> (Room, Search) {
    let room = random_room(rng, profile, SHARES);
    let mut kinds = random_terrain(rng, &room);
    let [start, goal] = random_ends(rng, &mut kinds);
    build(rng, &room, &mut kinds, [start, goal]);
    let cells = room.cells();
    let mut case = Search {
        sides: room.sides().map(|side| side as u16),
        config: random_config(rng, &room),
        start: start as u32,
        goal: goal as u32,
        queue: 12 * cells as u32,
        lent: cells as u32 + rng.pick(&[0, 0, 0, 1, 100]),
        kinds,
    };
    if rng.percent(50) {
        tighten(rng, &room, &mut case);
    }
    (room, case)
}

/// Two ends: mostly Air, some RedstoneWire, some anything, some the same cell.
fn random_ends(rng: &mut Rng, kinds: &mut [u8]) -> [usize; 2] {
    let air: Vec<usize> = (0..kinds.len())
        .filter(|cell| kinds[*cell] == kind::AIR)
        .collect();
    let mut end = || {
        let cell = if air.is_empty() || rng.percent(6) {
            rng.below(kinds.len())
        } else {
            rng.pick(&air)
        };
        if rng.percent(8) {
            kinds[cell] = kind::REDSTONE_WIRE;
        }
        cell
    };
    let start = end();
    // Mostly two cells: of a few draws the first that differs.
    let goal = (0..4).map(|_| end()).find(|goal| *goal != start);
    [start, goal.unwrap_or(start)]
}

/// Brings the node limit or the queue close to what the search needs.
fn tighten(rng: &mut Rng, room: &Room, case: &mut Search) {
    let needed = case.run(room, usize::MAX);
    if rng.percent(55) {
        let limit = around(rng, needed.expanded as usize) as u32;
        case.config.node_limit = limit.min(MOST_NODES);
    }
    if rng.percent(65) {
        case.queue = around(rng, needed.most_waiting).max(1) as u32;
    }
}
