//! Random sheets of which it is asked why a sink wasn't reached: in most of them something stands in a sink's way.

use super::damage::{damage_buffers, damage_sheet};
use super::sheets::random_job;
use super::site::{at, is_large};
use super::whys::{Fill, block_of, closet};
use super::{Profile, random_room};
use crate::rng::Rng;
use crate::room::{Place, Room, facing, kind};
use crate::samples::{block, default_job, wire};
use crate::sheet::{Job, Sheet};
use crate::tree::{Mode, realize};
use crate::tree_why::TreeWhy;
use crate::why::MOVES;

/// Of 200 rooms of the mixed profile: tiny, small, middle, large.
const SHARES: [usize; 4] = [60, 126, 13, 1];

/// A random sheet in either mode; one in five is one that numbers 1 to 9 refuse, or has an output too short.
pub fn random_tree_why(rng: &mut Rng, profile: Profile) -> TreeWhy {
    let mode = rng.pick(&[Mode::Published, Mode::Strict]);
    let (room, mut job) = if rng.percent(25) {
        tight(rng)
    } else {
        in_the_way(rng, profile)
    };
    if rng.percent(12) {
        // too low, or about the least that always suffices
        let (low, enough) = (rng.below(2 * room.cells()), 5 * (room.cells() - 1) + 1);
        job.config.node_limit = rng.pick(&[low, enough - 1, enough]) as u32;
    }
    let cells = room.cells() as u32;
    let sheet = Sheet {
        queue: if rng.percent(6) {
            rng.between(1, 12) as u32
        } else {
            12 * cells
        },
        branch: 16 * (cells + 1),
        lent: cells + rng.pick(&[0, 0, 0, 1, 100]),
        bytes: job.bytes(),
    };
    let mut case = TreeWhy::of(sheet, mode);
    case.reached += rng.pick(&[0, 0, 1, 50]);
    case.walls += rng.pick(&[0, 0, 1, 11, 600]);
    case.causes += rng.pick(&[0, 0, 1, 50]);
    if rng.percent(20) {
        damage(rng, &room, &mut job, &mut case);
    }
    case
}

/// An output or another buffer too short, or a fault of the sheet.
fn damage(rng: &mut Rng, room: &Room, job: &mut Job, case: &mut TreeWhy) {
    let cells = room.cells() as u32;
    match rng.below(20) {
        0..3 => case.reached = rng.pick(&[0, cells - 1]),
        3..6 => case.walls = rng.pick(&[0, cells, MOVES as u32 * cells - 1]),
        6..9 => case.causes = rng.pick(&[0, cells - 1]),
        9..11 => damage_buffers(rng, cells, &mut case.sheet),
        11 => {
            case.causes = cells - 1;
            damage_sheet(rng, job, &mut case.sheet);
        }
        _ => damage_sheet(rng, job, &mut case.sheet),
    }
}

/// A small empty room, or one with few blocks, and some sinks: where branches are in each other's way.
fn tight(rng: &mut Rng) -> (Room, Job) {
    let sides = [rng.between(1, 4), rng.between(2, 5), rng.between(1, 4)].map(|side| side as u16);
    let room = Room::new(sides, 80).expect("a small room");
    let mut place = || at(room.place(rng.below(room.cells())));
    let ports: Vec<_> = (0..5).map(|_| wire(place(), facing::NONE)).collect();
    let blocks = [place(), place(), place()];
    let mut job = default_job(sides, &ports[1..]);
    job.source = ports[0];
    job.sinks.truncate(rng.between(1, 4));
    for (node, at) in blocks.into_iter().take(rng.below(4)).enumerate() {
        let kind = rng.pick(&[
            kind::SOLID,
            kind::SOLID,
            kind::TRANSPARENT,
            kind::LEVER,
            kind::REDSTONE_TORCH,
        ]);
        put_block(&mut job, node as u16, at, kind);
    }
    if rng.percent(20) {
        job.reserved.push(at(room.place(rng.below(room.cells()))));
    }
    if rng.percent(20) {
        job.config.horizontal = rng.pick(&[9, 10]);
        job.config.stair = rng.pick(&[19, 20]);
    }
    (room, job)
}

/// A random job, with something in the way of one of its sinks or beside it.
fn in_the_way(rng: &mut Rng, profile: Profile) -> (Room, Job) {
    let room = random_room(rng, profile, SHARES);
    let mut job = random_job(rng, &room);
    if is_large(&room) {
        job.sinks.truncate(2);
    }
    let ends = realize(&job, &room).map_or(Vec::new(), |ends| ends.sinks);
    if !ends.is_empty() {
        let sink = rng.pick(&ends);
        shut_off(rng, &room, &mut job, sink.approach);
    }
    (room, job)
}

fn shut_off(rng: &mut Rng, room: &Room, job: &mut Job, approach: usize) {
    match rng.below(20) {
        0..2 => {
            let kind = rng.between(1, usize::from(kind::LAST)) as u8;
            put_block(job, 0, at(room.place(approach)), kind);
        }
        2..8 => blocks_round(rng, room, job, approach),
        8..15 => kept_free_round(rng, room, job, approach),
        15..17 => live_round(rng, room, job, approach),
        _ => {}
    }
}

/// The cells of a closet round an end, from the floor to the ceiling; now and then without one of them.
fn closet_cells(rng: &mut Rng, room: &Room, end: usize) -> Vec<[u16; 3]> {
    let high = room.sides()[1];
    let columns = closet(rng, room, end).into_iter();
    let mut cells: Vec<_> = columns
        .flat_map(|(x, z)| (0..high).map(move |y| Place::new(x, y, z)))
        .filter(|place| room.cell(*place).is_some())
        .map(at)
        .collect();
    if rng.percent(25) && !cells.is_empty() {
        let gap = rng.below(cells.len());
        cells.swap_remove(gap);
    }
    cells
}

fn blocks_round(rng: &mut Rng, room: &Room, job: &mut Job, end: usize) {
    let fill = rng.pick(&[Fill::Solid, Fill::Solid, Fill::Any, Fill::Unborne]);
    for at in closet_cells(rng, room, end) {
        let kind = block_of(rng, fill, at[1].into());
        put_block(job, 7, at, kind);
    }
}

/// Other nets' cells of one kind or of several, or reserved ones.
fn kept_free_round(rng: &mut Rng, room: &Room, job: &mut Job, end: usize) {
    let one = rng.below(5);
    for at in closet_cells(rng, room, end) {
        let list = if one == 4 { rng.below(4) } else { one };
        match list {
            0 => job.conductors.push(at),
            1 => job.clearances.push(at),
            2 => job.terminals.push(at),
            _ => job.reserved.push(at),
        }
    }
}

/// Levers and torches, which keep the cells beside them free.
fn live_round(rng: &mut Rng, room: &Room, job: &mut Job, end: usize) {
    for at in closet_cells(rng, room, end) {
        if rng.percent(40) {
            let kind = rng.pick(&[kind::LEVER, kind::REDSTONE_TORCH, kind::REDSTONE_BLOCK]);
            put_block(job, 8, at, kind);
        }
    }
}

/// Puts a block in its place, unless it is Air or one stands there.
fn put_block(job: &mut Job, node: u16, at: [u16; 3], kind: u8) {
    if kind != kind::AIR && job.blocks.iter().all(|other| other.at != at) {
        job.blocks.push(block(node, at, kind));
    }
}
