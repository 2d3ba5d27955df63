//! The cells that are blocked before the first sink is searched.

use std::collections::BTreeSet;

use crate::reading::{Other, Reading};
use crate::room::{DOWN, Offset, Place, Room, UP, kind, moves, sideways};
use crate::sheet::{Block, Job};
use crate::tree::{Ends, source_approach};

/// One mark a cell: blocked before the first sink is searched.
pub fn blocked_at_outset(job: &Job, room: &Room, ends: &Ends, reading: Reading) -> Vec<bool> {
    let mut blocked = vec![false; room.cells()];
    let mut mark = |place, mark| {
        // What lies outside has no effect.
        if let Some(cell) = room.cell(place) {
            blocked[cell] = mark;
        }
    };
    for at in lists(job).concat() {
        mark(Place::from(at), true);
    }
    for place in kept_clear(job, room, reading) {
        for offset in keepout(reading) {
            mark(place.plus(offset), true);
        }
    }
    let mut own = ends.own();
    if reading.is(Other::SourceApproachTakenOut) {
        own.extend(source_approach(job, room));
    }
    for place in own.into_iter().map(|cell| room.place(cell)) {
        mark(place, false);
        mark(place.plus(DOWN), false);
    }
    blocked
}

/// Other nets' conductors, clearances and terminals, and the reserved cells.
fn lists(job: &Job) -> [&[[u16; 3]]; 4] {
    [
        &job.conductors,
        &job.clearances,
        &job.terminals,
        &job.reserved,
    ]
}

/// A keepout: the four neighbours of a cell, each also one up and one down. The twelve moves lead there.
fn keepout(reading: Reading) -> impl Iterator<Item = Offset> {
    let upright = [UP, DOWN].into_iter();
    moves().chain(upright.filter(move |_| reading.is(Other::KeepoutAboveAndBeneath)))
}

/// What has a keepout: conductors of other nets, and what the blocks ask for.
fn kept_clear(job: &Job, room: &Room, reading: Reading) -> Vec<Place> {
    let [conductors, clearances, terminals, reserved] = lists(job);
    let mut kept: Vec<_> = conductors.to_vec();
    if reading.is(Other::EveryListKeepsOut) {
        kept.extend([clearances, terminals, reserved].concat());
    }
    let conductors = kept.into_iter().map(Place::from);
    conductors.chain(powering(job, room, reading)).collect()
}

/// The places whose keepout the blocks ask for: each RedstoneTorch, RedstoneBlock and Lever, and a Repeater's output cell
/// where that is a Solid block of the same node.
fn powering(job: &Job, room: &Room, reading: Reading) -> Vec<Place> {
    let solid: BTreeSet<_> = job
        .blocks
        .iter()
        .filter(|block| block.kind == kind::SOLID)
        .map(|block| (block.node, room.cell(Place::from(block.at))))
        .collect();
    let takes_power = |node, output| match room.cell(output) {
        None => reading.is(Other::OutsideIsPowered),
        cell => solid.contains(&(node, cell)),
    };
    let powering = |block: &Block| {
        let place = Place::from(block.at);
        match block.kind {
            kind::REDSTONE_TORCH | kind::REDSTONE_BLOCK | kind::LEVER => Some(place),
            kind::REPEATER => Some(place.plus(sideways(block.facing)?))
                .filter(|out| takes_power(block.node, *out)),
            _ => None,
        }
    };
    job.blocks.iter().filter_map(powering).collect()
}
