//! Random nets with their branches, of which repeaters are asked: branches of routed trees, and arbitrary ones that cross each other and
//! themselves, close rings and leave sinks aside.

use super::sheets::random_job;
use super::{Profile, around, random_room, set_limits};
use crate::parts::{SINK, SOURCE};
use crate::plan::Plan;
use crate::rng::Rng;
use crate::room::{Place, Room, SIDEWAYS, facing, moves, port, sideways};
use crate::samples::default_job;
use crate::sheet::{Job, MOST_SINKS, Port, Sink};
use crate::tree::{Limits, route_net_tree};

/// A random net: one in five is damaged.
pub fn random_plan(rng: &mut Rng, profile: Profile) -> Plan {
    let room = random_room(rng, profile, [40, 52, 7, 1]);
    let tree = if rng.percent(40) {
        routed(rng, &room)
    } else {
        None
    };
    let (mut job, branches) = tree.unwrap_or_else(|| arbitrary(rng, &room));
    set_limits(rng, &mut job);
    let mut plan = Plan::of(&job, &room, &branches);
    if rng.percent(20) {
        plan.branches.extend([0, 7]); // what no length claims isn't looked at
    }
    if rng.percent(20) {
        for _ in 0..rng.pick(&[1, 1, 2, 3]) {
            damage(rng, &room, &mut plan);
        }
    }
    plan
}

/// A routed tree; its branches as they are, or in another order, some of them backwards, missing or there twice.
fn routed(rng: &mut Rng, room: &Room) -> Option<(Job, Vec<Vec<usize>>)> {
    let job = random_job(rng, room);
    let mut branches = route_net_tree(&job, room, Limits::NONE).ok()?.branches;
    if rng.percent(40) {
        rng.shuffle(&mut branches);
        for branch in &mut branches {
            if rng.percent(30) {
                branch.reverse();
            }
        }
        if rng.percent(40) {
            branches.pop();
        }
        if branches.len() < MOST_SINKS && rng.percent(40) {
            branches.extend(branches.first().cloned());
        }
    }
    Some((job, branches))
}

/// Walks anywhere: most begin at the source or on one before, and most sinks lie on them.
fn arbitrary(rng: &mut Rng, room: &Room) -> (Job, Vec<Vec<usize>>) {
    let mut job = default_job(room.sides().map(|side| side as u16), &[]);
    let start = rng.below(room.cells());
    let mut branches: Vec<Vec<usize>> = Vec::new();
    for _ in 0..rng.pick(&[0, 1, 1, 1, 2, 2, 3, 5, MOST_SINKS]) {
        let known: Vec<usize> = branches.concat();
        let from = match rng.below(10) {
            0 => rng.below(room.cells()),
            1..6 if !known.is_empty() => rng.pick(&known),
            _ => start,
        };
        branches.push(walk(rng, room, from));
    }
    job.source = end_at(rng, room, start);
    let known: Vec<usize> = branches.concat();
    let sinks = rng.pick(&[0, 1, 1, 2, 3, 6, MOST_SINKS]);
    job.sinks = (0..sinks)
        .map(|_| {
            let last = branches.iter().filter_map(|branch| branch.last().copied());
            let lasts: Vec<usize> = last.collect();
            let cell = match rng.below(10) {
                0..6 if !lasts.is_empty() => rng.pick(&lasts),
                6..9 if !known.is_empty() => rng.pick(&known),
                _ => rng.below(room.cells()),
            };
            Sink::from(end_at(rng, room, cell))
        })
        .collect();
    (job, branches)
}

/// An end whose terminal is this cell; its approach is mostly inside.
fn end_at(rng: &mut Rng, room: &Room, cell: usize) -> Port {
    let Place { x, y, z } = room.place(cell);
    let at = [x, y, z].map(|number| number as u16);
    if rng.percent(25) {
        let towards = rng.pick(&[facing::NORTH, facing::EAST, facing::SOUTH, facing::WEST]);
        let by = sideways(towards).expect("a flat facing");
        let back = Place::new(x - by.0, y - by.1, z - by.2);
        if room.cell(back).is_some() && room.next(cell, by).is_some() {
            return Port {
                at: [back.x, back.y, back.z].map(|number| number as u16),
                kind: port::BLOCK_POWER,
                facing: towards,
            };
        }
    }
    let any = rng.below(usize::from(facing::LAST) + 1) as u8;
    let inside = sideways(any).is_none_or(|by| room.next(cell, by).is_some());
    let facing = match rng.below(100) {
        0..30 if inside => any,
        99 => any,
        _ => facing::NONE,
    };
    let kind = port::WIRE;
    Port { at, kind, facing }
}

/// Once round a rectangle, back to the first cell, if there is room for it.
fn ring(rng: &mut Rng, room: &Room, from: usize) -> Option<Vec<usize>> {
    let [wide, deep] = [rng.between(1, 9), rng.between(1, 9)];
    let mut path = vec![from];
    for (side, steps) in [(0, wide), (2, deep), (1, wide), (3, deep)] {
        let (dx, dz) = SIDEWAYS[side];
        for _ in 0..steps {
            let Place { x, y, z } = room.place(path[path.len() - 1]);
            path.push(room.cell(Place::new(x + dx, y, z + dz))?);
        }
    }
    Some(path)
}

/// Mostly straight on, now and then a turn, a stair or a step back; or a ring.
fn walk(rng: &mut Rng, room: &Room, from: usize) -> Vec<usize> {
    let ring = if rng.percent(30) {
        ring(rng, room, from)
    } else {
        None
    };
    if let Some(path) = ring {
        return path;
    }
    let length = rng.pick(&[0, 1, 2, 3, 5, 8, 13, 17, 30, 60]);
    let mut side = rng.pick(&SIDEWAYS);
    let mut path = Vec::new();
    let mut cell = from;
    let turns = rng.pick(&[0, 3, 15]);
    for _ in 0..length {
        path.push(cell);
        if rng.percent(turns) {
            side = rng.pick(&SIDEWAYS);
        }
        let up = rng.pick(&[0, 0, 0, 0, 0, 0, 0, 0, 0, 0, 0, 0, -1, 1]);
        let Place { x, y, z } = room.place(cell);
        let ahead = room.cell(Place::new(x + side.0, y + up, z + side.1));
        let any = moves().find_map(|by| room.next(cell, by));
        if ahead.is_none() {
            side = rng.pick(&SIDEWAYS);
        }
        match ahead.or(any) {
            Some(next) => cell = next,
            None => break, // a room of one cell's width has no step
        }
    }
    path
}

/// One of the faults that numbers 2 to 9 refuse.
fn damage(rng: &mut Rng, room: &Room, plan: &mut Plan) {
    let cells = room.cells();
    match rng.below(16) {
        0 => {
            let axis = rng.below(3);
            plan.sides[axis] = rng.pick(&[0, 255]);
        }
        1 => plan.run = rng.pick(&[0, 16, 256 + 12, (1 << 16) + 12, u32::MAX]),
        2 => damage_end(rng, &mut plan.source),
        3 | 4 if plan.sinks.len() >= SINK => {
            let sink = rng.below(plan.sinks.len() / SINK) * SINK;
            damage_end(rng, &mut plan.sinks[sink..sink + SOURCE]);
        }
        5 if plan.sinks.len() >= SINK => {
            let sink = rng.below(plan.sinks.len() / SINK) * SINK;
            plan.sinks[sink + SOURCE] = rng.pick(&[0, 16, 255, 256 + 8, u16::MAX]);
        }
        6..9 if !plan.branches.is_empty() => {
            let place = rng.below(plan.branches.len());
            let known = rng.pick(&plan.branches);
            let [old, any] = [plan.branches[place], rng.below(cells) as u32];
            plan.branches[place] = rng.pick(&[
                cells as u32,
                u32::MAX,
                known,
                old.saturating_add(1),
                old.saturating_sub(1),
                any,
            ]);
        }
        9 => damage_length(rng, &mut plan.source, 0),
        10 => damage_length(rng, &mut plan.sinks, SINK),
        11 => {
            let more = rng.pick(&[MOST_SINKS + 1, MOST_SINKS + 4]);
            let sink = [0, 0, 0, 0, 0, 8];
            while plan.sinks.len() < more * SINK {
                plan.sinks.extend(sink);
            }
        }
        12 => {
            let count = rng.pick(&[0, MOST_SINKS, MOST_SINKS + 1, 20]);
            plan.lengths.resize(count, rng.pick(&[0, 1]));
        }
        13 if !plan.lengths.is_empty() => {
            let place = rng.below(plan.lengths.len());
            let old = plan.lengths[place];
            plan.lengths[place] = rng.pick(&[
                0,
                old.saturating_add(1),
                old.saturating_add(3),
                1 << 31,
                u32::MAX,
            ]);
        }
        14 => plan.marks = around(rng, cells) as u32,
        _ => {
            let place = rng.below(plan.work.len());
            plan.work[place] = around(rng, cells) as u32;
        }
    }
}

/// A position, a port kind or a facing that is none; BlockPower that faces nowhere; an end that faces out of the room; or another facing.
fn damage_end(rng: &mut Rng, end: &mut [u16]) {
    if end.len() < SOURCE {
        return;
    }
    match rng.below(9) {
        0 => {
            let axis = rng.below(3);
            end[axis] = rng.pick(&[300, 301, u16::MAX]);
        }
        1 => end[3] = rng.pick(&[2, 256, u16::MAX]),
        2 => end[4] = rng.pick(&[7, 256, u16::MAX]),
        3..6 => end[3..SOURCE].copy_from_slice(&[1, rng.pick(&[0, 5, 6])]),
        6..8 => end[..SOURCE].copy_from_slice(&[0, 0, 0, rng.pick(&[0, 1]), rng.pick(&[1, 4])]),
        _ => end[4] = rng.between(1, 4) as u16,
    }
}

fn damage_length(rng: &mut Rng, list: &mut Vec<u16>, record: usize) {
    if rng.percent(50) {
        list.truncate(list.len().saturating_sub(rng.between(1, SINK)));
    } else {
        let more = rng.between(1, record.max(2));
        list.extend(vec![0; more]);
    }
}
