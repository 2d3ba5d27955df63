//! Random parts of jobs, to be written as sheets: those of random jobs, arbitrary lists in any order and with repeats, sheets about as
//! long as one may be, and all of them damaged.

use super::damage::damage_config;
use super::sheets::random_job;
use super::{Profile, around, random_config, random_room};
use crate::parts::{BLOCK, POSITION, Parts, SINK, SOURCE};
use crate::rng::Rng;
use crate::room::{MOST_SIDE, Ranges, Room, facing, kind, port};
use crate::samples::default_job;
use crate::sheet::{MOST_BYTES, MOST_SINKS};
use crate::version::{MOST_LIMIT, USUAL_RUN, USUAL_TAIL};

/// One in three is damaged; of one in four the output isn't of just the sheet's length. The tiny profile has no long sheets.
pub fn random_parts(rng: &mut Rng, profile: Profile) -> Parts {
    let room = random_room(rng, profile, [60, 34, 5, 1]);
    let mut parts = if rng.percent(30) {
        Parts::of(&random_job(rng, &room))
    } else {
        arbitrary(rng, &room)
    };
    if rng.percent(60) {
        set_limits(rng, &mut parts);
    }
    if profile != Profile::Tiny && rng.percent(1) {
        lengthen(rng, &mut parts);
    }
    if rng.percent(33) {
        for _ in 0..rng.pick(&[1, 1, 1, 2, 3]) {
            damage(rng, &mut parts);
        }
    }
    let size = parts.size();
    parts.lent = match rng.below(12) {
        0 => around(rng, size),
        1 => size + rng.below(200),
        2 => MOST_BYTES,
        _ => size,
    } as u32;
    parts
}

/// Lists that no generator of jobs would make: positions anywhere in the room, several of them twice, any node, any code.
fn arbitrary(rng: &mut Rng, room: &Room) -> Parts {
    let mut parts = Parts::of(&default_job([1, 1, 1], &[]));
    parts.sides = room.sides().map(|side| side as u32);
    parts.config = random_config(rng, room);
    let sides = parts.sides;
    let blocks = count(rng);
    parts.blocks = (0..blocks).flat_map(|_| block(rng, sides)).collect();
    for list in &mut parts.lists {
        let positions = count(rng);
        *list = (0..positions).flat_map(|_| position(rng, sides)).collect();
    }
    parts.source = end(rng, sides).to_vec();
    let sinks = rng.pick(&[0, 1, 2, 3, 7, MOST_SINKS - 1, MOST_SINKS]);
    parts.sinks = (0..sinks).flat_map(|_| sink(rng, sides)).collect();
    parts
}

/// Other limits than the usual ones: of all, of the run alone, or of one sink alone, so that a single number asks for version 2.
fn set_limits(rng: &mut Rng, parts: &mut Parts) {
    let limit = |rng: &mut Rng| rng.between(1, MOST_LIMIT.into()) as u16;
    let which = rng.below(4);
    if which < 3 {
        parts.run = limit(rng).into();
    }
    let sinks = parts.sinks.len() / SINK;
    let one = rng.below(sinks.max(1));
    for (place, sink) in parts.sinks.chunks_exact_mut(SINK).enumerate() {
        if which < 2 || which == 3 && place == one {
            sink[SOURCE] = limit(rng);
        }
    }
}

fn count(rng: &mut Rng) -> usize {
    match rng.below(20) {
        0..7 => 0,
        7..12 => 1,
        12..19 => rng.between(2, 12),
        _ => rng.between(13, 300),
    }
}

fn position(rng: &mut Rng, sides: [u32; 3]) -> [u16; POSITION] {
    sides.map(|side| rng.below(side as usize) as u16)
}

fn block(rng: &mut Rng, sides: [u32; 3]) -> [u16; BLOCK] {
    let [x, y, z] = position(rng, sides);
    let node = rng.pick(&[0, 1, 255, 256, 0x1234, u16::MAX]);
    let code = rng.between(1, usize::from(kind::LAST)) as u16;
    [node, x, y, z, code, code_up_to(rng, facing::LAST)]
}

fn end(rng: &mut Rng, sides: [u32; 3]) -> [u16; SOURCE] {
    let [x, y, z] = position(rng, sides);
    let port = code_up_to(rng, port::LAST);
    [x, y, z, port, code_up_to(rng, facing::LAST)]
}

fn sink(rng: &mut Rng, sides: [u32; 3]) -> [u16; SINK] {
    let [x, y, z, port, facing] = end(rng, sides);
    [x, y, z, port, facing, USUAL_TAIL.into()]
}

fn code_up_to(rng: &mut Rng, last: u8) -> u16 {
    rng.below(usize::from(last) + 1) as u16
}

/// Records behind a list, up to 60,000 bytes or a few more or less; now and then far more, over the counts' sixteen bits too.
fn lengthen(rng: &mut Rng, parts: &mut Parts) {
    let length = match rng.below(10) {
        0 => 70_000,
        1 => 4 * 65_536,
        _ => MOST_BYTES + rng.below(7) - 3,
    };
    let missing = length.saturating_sub(parts.size());
    let sides = parts.sides;
    if rng.percent(30) {
        let more = block(rng, sides);
        parts.blocks.extend(more.repeat(missing / 7));
        return;
    }
    let more = position(rng, sides);
    let list = rng.below(parts.lists.len());
    parts.lists[list].extend(more.repeat(missing / 3));
}

/// One fault, mostly.
fn damage(rng: &mut Rng, parts: &mut Parts) {
    match rng.below(12) {
        0 => damage_sides(rng, parts),
        1 if rng.percent(50) => {
            let ranges = rng.pick(&[Ranges::OLD, Ranges::WIDE]);
            damage_config(rng, &ranges, &mut parts.config);
        }
        1 => damage_limit(rng, parts),
        2..4 => damage_length(rng, parts),
        4 => {
            let sides = parts.sides.map(|side| side.clamp(1, MOST_SIDE.into()));
            let sinks = rng.pick(&[MOST_SINKS + 1, MOST_SINKS + 2, 51, 52, 256, 257]);
            parts.sinks = (0..sinks).flat_map(|_| sink(rng, sides)).collect();
        }
        _ => damage_number(rng, parts),
    }
}

/// Sides that are none; some have a low byte or low bits that would be one.
fn damage_sides(rng: &mut Rng, parts: &mut Parts) {
    let axis = rng.below(3);
    let low = parts.sides[axis];
    let over = |by: u32| low.wrapping_add(by);
    parts.sides[axis] = rng.pick(&[
        0,
        65,
        255,
        300,
        301,
        over(1 << 8),
        over(1 << 16),
        u32::MAX,
        1 << 31,
    ]);
    if rng.percent(30) {
        parts.sides = rng.pick(&[
            [64, 5, 64],
            [23, 23, 31],
            [256, 257, 1],
            [300, 8, 28],
            [1 << 16, 1 << 16, 1],
            [u32::MAX; 3],
        ]);
    }
}

/// A limit that is none: 0, 16, or one whose low byte or low bits would be a limit.
fn damage_limit(rng: &mut Rng, parts: &mut Parts) {
    let sinks = parts.sinks.len() / SINK;
    if sinks == 0 || rng.percent(50) {
        let low = u32::from(USUAL_RUN);
        parts.run = rng.pick(&[0, 16, 255, 256 + low, (1 << 16) + low, u32::MAX]);
        return;
    }
    let place = rng.below(sinks) * SINK + SOURCE;
    parts.sinks[place] = rng.pick(&[0, 16, 255, 256 + u16::from(USUAL_TAIL), u16::MAX]);
}

/// Every list, with the numbers of a record.
fn every_list(parts: &mut Parts) -> Vec<(&mut Vec<u16>, usize)> {
    let Parts {
        blocks,
        lists,
        source,
        sinks,
        ..
    } = parts;
    let positions = lists.iter_mut().map(|list| (list, POSITION));
    let others = [(blocks, BLOCK), (source, SOURCE), (sinks, SINK)];
    others.into_iter().chain(positions).collect()
}

/// A list that is no whole number of records; or one that is again, a record shorter or longer.
fn damage_length(rng: &mut Rng, parts: &mut Parts) {
    let mut lists = every_list(parts);
    let chosen = rng.below(lists.len());
    let (list, record) = &mut lists[chosen];
    if rng.percent(50) {
        list.truncate(list.len().saturating_sub(rng.between(1, *record)));
    } else {
        let more = rng.between(1, *record);
        list.extend(vec![0; more]);
    }
}

/// A number that may be out of range: x, y or z, or a code; some have a low byte that would be in range.
fn damage_number(rng: &mut Rng, parts: &mut Parts) {
    let sides = parts.sides;
    let any = rng.draw() as u16;
    let mut lists = every_list(parts);
    lists.retain(|(list, _)| !list.is_empty());
    let chosen = rng.below(lists.len());
    let (list, _) = &mut lists[chosen];
    let place = rng.below(list.len());
    let old = list[place];
    let side = rng.pick(&sides) as u16;
    list[place] = rng.pick(&[
        old.wrapping_add(256),
        side,
        300,
        7,
        13,
        64,
        255,
        256,
        u16::MAX,
        any,
    ]);
}
