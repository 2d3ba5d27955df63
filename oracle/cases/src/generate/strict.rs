//! Random sheets that are asked in both modes.

use super::damage::damage_sheet;
use super::{Profile, random_sheet};
use crate::rng::Rng;
use crate::room::{MOST_CELLS, Room};
use crate::sheet::Job;
use crate::strict::StrictSheet;

/// A random sheet. In half of those that are read more cells are blocked; about one in five is one that numbers 1 to 9 refuse.
pub fn random_strict(rng: &mut Rng, profile: Profile) -> StrictSheet {
    let mut sheet = random_sheet(rng, profile);
    if let Ok((mut job, room)) = sheet.judge(MOST_CELLS) {
        if rng.percent(50) {
            block_more(rng, &room, &mut job);
            sheet.bytes = job.bytes();
        }
        if rng.percent(8) {
            damage_sheet(rng, &mut job, &mut sheet);
        }
    }
    StrictSheet(sheet)
}

/// Another net's lane along x or z, or some cells here and there in one of the lists.
fn block_more(rng: &mut Rng, room: &Room, job: &mut Job) {
    let [wide, _, deep] = room.sides();
    let mut at = || room.place(rng.below(room.cells()));
    let (first, any) = (at(), [at(), at(), at(), at()]);
    let byte = |place: crate::room::Place| [place.x, place.y, place.z].map(|part| part as u16);
    let [x, y, z] = byte(first);
    match rng.below(4) {
        0 => job.conductors.extend((0..wide).map(|x| [x as u16, y, z])),
        1 => job.conductors.extend((0..deep).map(|z| [x, y, z as u16])),
        2 => job.reserved.extend(any.map(byte)),
        _ => job.clearances.extend(any.map(byte)),
    }
}
