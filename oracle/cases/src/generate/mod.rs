//! Random cases. The same seed gives the same cases; each case of a list can be made by itself.

mod damage;
mod drawings;
mod functions;
mod halls;
mod limits;
mod lists;
mod parts;
mod plans;
mod searches;
mod sheets;
mod site;
mod strict;
mod terrain;
mod tree_whys;
mod whys;

pub use damage::count_places;
pub use drawings::random_drawing;
pub use functions::random_function;
pub use limits::{random_limit_sheet, set_limits};
pub use lists::random_list;
pub use parts::random_parts;
pub use plans::random_plan;
pub use searches::{random_plain_search, random_search};
pub use sheets::random_sheet;
pub use strict::random_strict;
pub use tree_whys::random_tree_why;
pub use whys::random_why;

use halls::{hall_config, hall_sides, is_hall};

use crate::drawing::Drawing;
use crate::function::Function;
use crate::limits::LimitSheet;
use crate::lists::List;
use crate::parts::Parts;
use crate::plan::Plan;
use crate::rng::Rng;
use crate::room::{Config, Ranges, Room};
use crate::search::Search;
use crate::sheet::Sheet;
use crate::strict::StrictSheet;
use crate::tree_why::TreeWhy;
use crate::why::Why;

/// How large the rooms of random cases are.
#[derive(Clone, Copy, Debug, Eq, PartialEq)]
pub enum Profile {
    /// Sides of 1 to 4.
    Tiny,
    /// Up to some hundred cells.
    Small,
    /// Up to some thousand cells.
    Middle,
    /// Up to 16,384 cells.
    Large,
    /// At and above the limits that rooms and costs once had: a side over 64, up to 65,536 cells, costs that are just good or one too dear.
    Halls,
    /// All but halls, mostly tiny and small.
    Mixed,
}

impl Profile {
    pub const NAMES: [(&'static str, Self); 6] = [
        ("tiny", Self::Tiny),
        ("small", Self::Small),
        ("middle", Self::Middle),
        ("large", Self::Large),
        ("halls", Self::Halls),
        ("mixed", Self::Mixed),
    ];

    pub fn named(name: &str) -> Option<Self> {
        let mut names = Self::NAMES.into_iter();
        names
            .find(|(known, _)| *known == name)
            .map(|(_, profile)| profile)
    }
}

/// A list of random drawings.
pub fn drawings(seed: u64, count: u32, profile: Profile) -> Vec<Drawing> {
    (0..u64::from(count))
        .map(|index| random_drawing(&mut Rng::for_case(seed, index), profile))
        .collect()
}

/// A list of random nets of which repeaters are asked.
pub fn plans(seed: u64, count: u32, profile: Profile) -> Vec<Plan> {
    (0..u64::from(count))
        .map(|index| random_plan(&mut Rng::for_case(seed, index), profile))
        .collect()
}

/// So many random lists of nets.
pub fn lists(seed: u64, count: u32, profile: Profile) -> Vec<List> {
    (0..u64::from(count))
        .map(|index| random_list(&mut Rng::for_case(seed, index), profile))
        .collect()
}

/// A list of random searches.
pub fn searches(seed: u64, count: u32, profile: Profile) -> Vec<Search> {
    (0..u64::from(count))
        .map(|index| random_search(&mut Rng::for_case(seed, index), profile))
        .collect()
}

/// A list of random sheets.
pub fn sheets(seed: u64, count: u32, profile: Profile) -> Vec<Sheet> {
    (0..u64::from(count))
        .map(|index| random_sheet(&mut Rng::for_case(seed, index), profile))
        .collect()
}

/// A list of random sheets at any limits.
pub fn limit_sheets(seed: u64, count: u32, profile: Profile) -> Vec<LimitSheet> {
    (0..u64::from(count))
        .map(|index| random_limit_sheet(&mut Rng::for_case(seed, index), profile))
        .collect()
}

/// A list of random sheets for strict mode.
pub fn strict_sheets(seed: u64, count: u32, profile: Profile) -> Vec<StrictSheet> {
    (0..u64::from(count))
        .map(|index| random_strict(&mut Rng::for_case(seed, index), profile))
        .collect()
}

/// A list of random searches of which the reason is asked.
pub fn whys(seed: u64, count: u32, profile: Profile) -> Vec<Why> {
    (0..u64::from(count))
        .map(|index| random_why(&mut Rng::for_case(seed, index), profile))
        .collect()
}

/// A list of random sheets of which it is asked why a sink wasn't reached.
pub fn tree_whys(seed: u64, count: u32, profile: Profile) -> Vec<TreeWhy> {
    (0..u64::from(count))
        .map(|index| random_tree_why(&mut Rng::for_case(seed, index), profile))
        .collect()
}

/// A list of random function files, written and read.
pub fn functions(seed: u64, count: u32, profile: Profile) -> Vec<Function> {
    (0..u64::from(count))
        .map(|index| random_function(&mut Rng::for_case(seed, index), profile))
        .collect()
}

/// A list of random parts of jobs, to be written.
pub fn writes(seed: u64, count: u32, profile: Profile) -> Vec<Parts> {
    (0..u64::from(count))
        .map(|index| random_parts(&mut Rng::for_case(seed, index), profile))
        .collect()
}

/// A lawful room. For the mixed profile its size is drawn by `shares`: tiny, small, middle, large.
fn random_room(rng: &mut Rng, profile: Profile, shares: [usize; 4]) -> Room {
    let size = match profile {
        Profile::Mixed => random_size(rng, shares),
        size => size,
    };
    loop {
        let sides = match size {
            Profile::Tiny => [rng.between(1, 4), rng.between(1, 4), rng.between(1, 4)],
            Profile::Small => small_sides(rng),
            Profile::Middle => [rng.between(4, 24), rng.between(1, 10), rng.between(4, 24)],
            Profile::Large | Profile::Mixed => large_sides(rng),
            Profile::Halls => hall_sides(rng),
        };
        let most_cells = match size {
            Profile::Middle => 2_400,
            Profile::Halls => Ranges::WIDE.cells,
            _ => Ranges::OLD.cells,
        };
        if let Some(room) = Room::new(sides.map(|side| side as u16), most_cells) {
            return room;
        }
    }
}

fn random_size(rng: &mut Rng, shares: [usize; 4]) -> Profile {
    let sizes = [Profile::Tiny, Profile::Small, Profile::Middle];
    let mut draw = rng.below(shares.iter().sum());
    for (size, share) in sizes.into_iter().zip(shares) {
        if draw < share {
            return size;
        }
        draw -= share;
    }
    Profile::Large
}

fn small_sides(rng: &mut Rng) -> [usize; 3] {
    match rng.below(4) {
        0 => [rng.between(9, 64), rng.between(1, 4), rng.between(1, 3)],
        1 => [rng.between(1, 3), rng.between(1, 4), rng.between(9, 64)],
        2 => [rng.between(3, 14), rng.between(1, 3), rng.between(3, 14)],
        _ => [rng.between(2, 9), rng.between(2, 6), rng.between(2, 9)],
    }
}

/// Rooms of over 5,000 cells, often exactly 16,384.
fn large_sides(rng: &mut Rng) -> [usize; 3] {
    const FULL: [[usize; 3]; 5] = [
        [64, 4, 64],
        [32, 16, 32],
        [16, 64, 16],
        [64, 64, 4],
        [4, 64, 64],
    ];
    match rng.below(3) {
        0 => rng.pick(&FULL),
        1 => [63, rng.between(2, 4), 63],
        _ => [
            rng.between(18, 25),
            rng.between(16, 25),
            rng.between(18, 25),
        ],
    }
}

/// Costs in range: the default, above 10 and 20, below, none, at the limits, anywhere. In a hall they may be those of halls.
fn random_config(rng: &mut Rng, room: &Room) -> Config {
    if is_hall(room) && rng.percent(60) {
        return hall_config(rng, room);
    }
    const MOST_COST: u32 = Ranges::OLD.cost;
    const MOST_NODES: u32 = Ranges::OLD.nodes;
    let [horizontal, stair, support] = match rng.below(20) {
        0..9 => {
            let default = Config::DEFAULT;
            [default.horizontal, default.stair, default.support]
        }
        9..12 => [rng.between(10, 40), rng.between(20, 80), rng.between(0, 60)].map(|c| c as u32),
        12..15 => [rng.between(0, 12), rng.between(0, 25), rng.between(0, 20)].map(|c| c as u32),
        15 => [0; 3],
        16..18 => [(); 3].map(|()| rng.pick(&[0, 10, 20, 99_999, MOST_COST])),
        _ => [(); 3].map(|()| rng.below(MOST_COST as usize + 1) as u32),
    };
    let twelve_a_cell = 12 * room.cells() as u32;
    Config {
        node_limit: rng.pick(&[30_000, 30_000, twelve_a_cell.min(MOST_NODES), MOST_NODES]),
        horizontal,
        stair,
        support,
    }
}

/// A number near `exact`: it, one less, one more, 0, 1, or anything below.
fn around(rng: &mut Rng, exact: usize) -> usize {
    match rng.below(8) {
        0..3 => exact,
        3..5 => exact.saturating_sub(1),
        5 => exact + 1,
        6 => rng.below(2),
        _ => rng.below(exact + 1),
    }
}
