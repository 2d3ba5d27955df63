//! Random searches of which the reason is asked: in most of them something shuts one end off from the other.

use super::Profile;
use super::damage::damage_search;
use super::searches::sound_search;
use crate::rng::Rng;
use crate::room::{Place, Room, kind};
use crate::why::{MOVES, Why};

/// A random search; one in five is one that numbers 2 to 6 refuse.
pub fn random_why(rng: &mut Rng, profile: Profile) -> Why {
    let (room, search) = if rng.percent(20) {
        sound_search(rng, profile, |_, _, _, _| {})
    } else {
        sound_search(rng, profile, shut_off)
    };
    let mut case = Why::of(search);
    // `of` has the lengths that just suffice; the sides are still those of the room.
    case.reached += rng.pick(&[0, 0, 1, 50]);
    case.walls += rng.pick(&[0, 0, 1, 11, 600]);
    if rng.percent(20) {
        damage_why(rng, &room, &mut case);
    }
    case
}

/// A fault of the search, an output too short, or both.
fn damage_why(rng: &mut Rng, room: &Room, case: &mut Why) {
    let cells = room.cells() as u32;
    let fault = rng.below(10);
    if fault < 6 {
        damage_search(rng, room, &mut case.search);
    }
    match fault {
        5..8 => case.reached = rng.pick(&[0, cells - 1]),
        8.. => case.walls = rng.pick(&[0, cells, (MOVES as u32) * cells - 1]),
        _ => {}
    }
}

/// What a column of a wall is made of.
#[derive(Clone, Copy)]
pub(super) enum Fill {
    Solid,
    /// Blocks of every kind but Air.
    Any,
    /// Blocks that bear nothing, each with Air above it, which so can't be entered.
    Unborne,
}

/// Kinds that can't be entered and bear nothing.
const UNBEARING: [u8; 6] = [
    kind::REDSTONE_TORCH,
    kind::REPEATER,
    kind::COMPARATOR,
    kind::LEVER,
    kind::BUTTON,
    kind::PISTON,
];

/// Builds a closet round one of the ends, or a wall between them; now and then with a hole.
fn shut_off(rng: &mut Rng, room: &Room, kinds: &mut [u8], ends: [usize; 2]) {
    let fill = rng.pick(&[Fill::Solid, Fill::Any, Fill::Unborne]);
    let columns = if rng.percent(60) {
        let end = rng.pick(&ends);
        closet(rng, room, end)
    } else {
        wall(rng, room, ends)
    };
    for (x, z) in &columns {
        for y in 0..room.sides()[1] {
            let block = block_of(rng, fill, y);
            put(room, kinds, ends, Place::new(*x, y, *z), block);
        }
    }
    if rng.percent(15) && !columns.is_empty() {
        let (x, z) = rng.pick(&columns);
        let y = rng.below(room.sides()[1] as usize) as i32;
        put(room, kinds, ends, Place::new(x, y, z), kind::AIR);
    }
}

pub(super) fn block_of(rng: &mut Rng, fill: Fill, y: i32) -> u8 {
    match fill {
        Fill::Solid => kind::SOLID,
        Fill::Any => rng.between(1, usize::from(kind::LAST)) as u8,
        Fill::Unborne if y % 2 == 0 => rng.pick(&UNBEARING),
        Fill::Unborne => kind::AIR,
    }
}

/// Puts a block in its place, unless an end stands there or it is outside.
fn put(room: &Room, kinds: &mut [u8], ends: [usize; 2], place: Place, block: u8) {
    if let Some(cell) = room.cell(place).filter(|cell| !ends.contains(cell)) {
        kinds[cell] = block;
    }
}

/// The columns that stand round an end, one to three cells away.
pub(super) fn closet(rng: &mut Rng, room: &Room, end: usize) -> Vec<(i32, i32)> {
    let away: i32 = rng.pick(&[1, 1, 2, 3]);
    let Place { x, z, .. } = room.place(end);
    let square = (-away..=away).flat_map(|dx| (-away..=away).map(move |dz| (dx, dz)));
    let ring = square.filter(|(dx, dz)| dx.abs().max(dz.abs()) == away);
    ring.map(|(dx, dz)| (x + dx, z + dz)).collect()
}

/// The columns of a wall across the room, somewhere between the ends.
fn wall(rng: &mut Rng, room: &Room, ends: [usize; 2]) -> Vec<(i32, i32)> {
    let [wide, _, deep] = room.sides();
    let [one, other] = ends.map(|end| room.place(end));
    // Through neither end, if there is room between them.
    let mut between = |a: i32, b: i32| {
        let (least, most) = (a.min(b), a.max(b));
        let apart = i32::from(most - least >= 2);
        rng.between((least + apart) as usize, (most - apart) as usize) as i32
    };
    if one.x.abs_diff(other.x) >= one.z.abs_diff(other.z) {
        let x = between(one.x, other.x);
        (0..deep).map(|z| (x, z)).collect()
    } else {
        let z = between(one.z, other.z);
        (0..wide).map(|x| (x, z)).collect()
    }
}
