//! One route drawn into a room of kinds, in place: supports and wire along a path, then repeaters.

use crate::answer::Refusal;
use crate::ffi::{dustroute_insert_repeaters, dustroute_materialize_route};
use crate::job::{Facing, Kind, Room};

/// How many values a drawn route and a list of repeaters come to.
pub const ROUTE_VALUES: usize = 1;
pub const LIST_VALUES: usize = 2;

/// A repeater of a path: its cell, and the way the path goes there, from input to output.
#[derive(Clone, Copy, Debug, Eq, PartialEq)]
pub struct Repeater {
    pub cell: u32,
    pub facing: Facing,
}

/// Draws a path into a room: cell by cell a support of this kind where the cell beneath is Air, then wire where the cell is Air. A support
/// outside the room isn't laid. `kinds` are one for each cell, and a refusal (2, 6, 5, 4) leaves them as they were.
pub fn materialize_route(room: Room, support: Kind, kinds: &mut [u8], path: &[u32]) -> Result<(), Refusal> {
    match call_materialize(room, support as u32, kinds, path, &mut [0; ROUTE_VALUES]) {
        0 => Ok(()),
        refused => Err(Refusal::of(refused, 0)),
    }
}

/// Swaps straight cells of a path for repeaters at a run limit, and lists each in path order. A limit of 0 acts as 1. `kinds` are one for each
/// cell, and a refusal (2, 6, 5, 4) leaves them as they were.
pub fn insert_repeaters(room: Room, run: u32, kinds: &mut [u8], path: &[u32]) -> Result<Vec<Repeater>, Refusal> {
    let (mut cells, mut facings) = (vec![0; path.len()], vec![0; path.len()]);
    let mut values = [0; LIST_VALUES];
    match call_insert(room, run, kinds, path, &mut cells, &mut facings, &mut values) {
        0 => {
            let entries = cells.into_iter().zip(facings).take(values[1] as usize);
            Ok(entries.map(|(cell, facing)| entry(cell, facing)).collect())
        }
        refused => Err(Refusal::of(refused, 0)),
    }
}

fn entry(cell: u32, facing: u8) -> Repeater {
    let facing = match facing {
        1 => Facing::North,
        2 => Facing::East,
        3 => Facing::South,
        4 => Facing::West,
        _ => unreachable!("a repeater faces one of four ways"),
    };
    Repeater { cell, facing }
}

/// The bare call: the number comes back, 0 for a drawn route, and what was lent is as the router leaves it.
pub fn call_materialize(room: Room, support: u32, kinds: &mut [u8], path: &[u32], values: &mut [u64]) -> u32 {
    // SAFETY: each pointer and length is that of a slice that lives through the call, and no two of them overlap. The router has no
    // requirement on what it is handed, and reads and writes within the slices alone.
    unsafe {
        dustroute_materialize_route(
            room.wide.into(),
            room.high.into(),
            room.deep.into(),
            support,
            kinds.as_mut_ptr(),
            kinds.len(),
            path.as_ptr(),
            path.len(),
            values.as_mut_ptr(),
            values.len(),
        )
    }
}

/// The bare call: the number comes back, 0 for a list, and what was lent is as the router leaves it.
pub fn call_insert(room: Room, run: u32, kinds: &mut [u8], path: &[u32], cells: &mut [u32], facings: &mut [u8], values: &mut [u64]) -> u32 {
    // SAFETY: as for `call_materialize`.
    unsafe {
        dustroute_insert_repeaters(
            room.wide.into(),
            room.high.into(),
            room.deep.into(),
            run,
            kinds.as_mut_ptr(),
            kinds.len(),
            path.as_ptr(),
            path.len(),
            cells.as_mut_ptr(),
            cells.len(),
            facings.as_mut_ptr(),
            facings.len(),
            values.as_mut_ptr(),
            values.len(),
        )
    }
}
