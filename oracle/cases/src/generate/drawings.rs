//! Random drawings: paths of searches and arbitrary ones, in rooms of every kind.

use super::Profile;
use super::searches::sound_search;
use crate::drawing::Drawing;
use crate::rng::Rng;
use crate::room::{Place, Room, SIDEWAYS, kind};
use crate::search::{Search, SearchAnswer};

/// A random drawing; one in five is damaged.
pub fn random_drawing(rng: &mut Rng, profile: Profile) -> Drawing {
    let (room, search) = sound_search(rng, profile, |_, _, _, _| {});
    let path = if rng.percent(50) {
        route_of(&search).unwrap_or_else(|| walk(rng, &room))
    } else {
        walk(rng, &room)
    };
    let length = path.len() as u32;
    let mut case = Drawing {
        sides: search.sides,
        support: rng.pick(&[1, 1, 1, 2, 0, 3, 5, 7, 11, 12]),
        run: if rng.percent(50) {
            rng.below(5)
        } else {
            rng.below(21)
        } as u32,
        kinds: search.kinds,
        path,
        cells: length + rng.pick(&[0, 0, 1, 40]),
        facings: length + rng.pick(&[0, 0, 1, 40]),
    };
    if rng.percent(4) {
        case.run = rng.pick(&[1_000_000, u32::MAX]);
    }
    if rng.percent(20) {
        damage(rng, &mut case);
    }
    case
}

/// The path that the search answers, if it has one.
fn route_of(search: &Search) -> Option<Vec<u32>> {
    match search.plain_answer() {
        SearchAnswer::Route { path, .. } => Some(path.into_iter().map(u32::from).collect()),
        SearchAnswer::Refused(_) => None,
    }
}

/// Mostly straight on; now and then a turn, a stair, a jump to any cell, the same cell again.
fn walk(rng: &mut Rng, room: &Room) -> Vec<u32> {
    let length = rng.pick(&[0, 1, 2, 3, 5, 8, 13, 30, 60]);
    let mut cell = rng.below(room.cells());
    let mut side = rng.pick(&SIDEWAYS);
    let mut path = Vec::new();
    for _ in 0..length {
        path.push(cell as u32);
        if rng.percent(15) {
            side = rng.pick(&SIDEWAYS);
        }
        if rng.percent(4) {
            cell = rng.below(room.cells());
            continue;
        }
        let up = if rng.percent(15) {
            rng.pick(&[-1, 1])
        } else {
            0
        };
        let Place { x, y, z } = room.place(cell);
        match room.cell(Place::new(x + side.0, y + up, z + side.1)) {
            Some(next) => cell = next,
            None => side = (-side.0, -side.1),
        }
    }
    path
}

/// One of the faults that numbers 2, 6, 5 and 4 refuse, or two.
fn damage(rng: &mut Rng, case: &mut Drawing) {
    let cells: u32 = case.sides.iter().map(|side| u32::from(*side)).product();
    let faults = rng.pick(&[1, 1, 2]);
    for _ in 0..faults {
        match rng.below(7) {
            0 if rng.percent(50) => case.sides = [255, 2, 129],
            0 => case.sides[rng.below(3)] = rng.pick(&[0, 65, 255]),
            1 => case.kinds.truncate(rng.pick(&[0, cells as usize - 1])),
            2 => case.kinds.push(kind::AIR),
            3 => case.cells = rng.pick(&[0, (case.path.len() as u32).saturating_sub(1)]),
            4 => case.facings = rng.pick(&[0, (case.path.len() as u32).saturating_sub(1)]),
            5 if rng.percent(50) || case.kinds.is_empty() => {
                case.support = rng.pick(&[13, 255, 256, 257, u32::MAX])
            }
            5 => {
                let place = rng.below(case.kinds.len());
                case.kinds[place] = rng.pick(&[13, 255]);
            }
            _ if case.path.is_empty() => case.path.push(cells),
            _ => {
                let place = rng.below(case.path.len());
                case.path[place] = rng.pick(&[cells, cells + 1, u32::MAX]);
            }
        }
    }
}
