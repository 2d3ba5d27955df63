//! Halls: rooms that were too large once, and costs at which the product of cells and dearest step just holds, or is one too much.

use crate::rng::Rng;
use crate::room::{Config, Ranges, Room};

/// A room that no sheet of version 1 or 2 has.
pub fn is_hall(room: &Room) -> bool {
    !Ranges::OLD.sides_in(room.sides().map(|side| side as u32))
}

/// Mostly long and thin, so that the published Rust answers soon; one in two hundred has more than 16,384 cells.
pub fn hall_sides(rng: &mut Rng) -> [usize; 3] {
    const FULL: [[usize; 3]; 6] = [
        [300, 8, 27],
        [256, 256, 1],
        [64, 16, 64],
        [300, 218, 1],
        [1, 256, 256],
        [2, 300, 109],
    ];
    let long = rng.pick(&[65, 100, 255, 256, 257, 299, 300]);
    match rng.below(200) {
        0 => rng.pick(&FULL),
        1..30 => [rng.between(1, 2), long, rng.between(1, 3)],
        30..60 => [rng.between(1, 3), rng.between(1, 4), long],
        // Here the product can be too large: 1,651 cells and more.
        60..100 => [long.max(256), rng.between(2, 4), rng.between(2, 4)],
        _ => [long, rng.between(1, 4), rng.between(1, 3)],
    }
}

/// Costs and a node limit of halls. In a room of fewer than 1,651 cells every cost up to the greatest is good.
pub fn hall_config(rng: &mut Rng, room: &Room) -> Config {
    let Ranges { cost, nodes, .. } = Ranges::WIDE;
    let mut config = match rng.below(4) {
        0 => Config {
            horizontal: rng.pick(&[0, 10, 100_001, cost]),
            stair: rng.pick(&[0, 20, 100_001, cost]),
            support: rng.pick(&[0, 15, 100_001, cost]),
            ..Config::DEFAULT
        },
        _ => dearest(rng, room),
    };
    let twelve_a_cell = 12 * room.cells() as u32;
    config.node_limit = rng.pick(&[30_000, 200_001, twelve_a_cell, nodes]);
    config
}

/// The dearest step and support at which the product just holds; of one in three one of them costs one more.
fn dearest(rng: &mut Rng, room: &Room) -> Config {
    let most = Ranges::WIDE.cost;
    let sum = (Ranges::WIDE.product / room.cells() as u64).min(2 * u64::from(most)) as u32;
    let support = rng.between(sum.saturating_sub(most) as usize, sum.min(most) as usize) as u32;
    let dearer = sum - support + rng.pick(&[0, 0, 1]);
    let other = rng.pick(&[0, 10, 20, dearer.saturating_sub(1), dearer]);
    let [horizontal, stair] = rng.pick(&[[dearer, other], [other, dearer]]);
    Config {
        horizontal,
        stair,
        support,
        ..Config::DEFAULT
    }
}
