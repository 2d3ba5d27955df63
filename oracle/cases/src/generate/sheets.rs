//! Random sheets.

use super::damage::{damage_buffers, damage_sheet};
use super::site::{Site, at, is_large};
use super::terrain::random_terrain;
use super::{Profile, around, is_hall, random_config, random_room};
use crate::Refusal;
use crate::rng::Rng;
use crate::room::{Room, facing, kind};
use crate::samples::{block, default_job, wire};
use crate::sheet::{Block, Job, MOST_BYTES, MOST_SINKS, Sheet};
use crate::tree::{Limits, ROUTE_LIMITS, realize, route_net_tree};
use crate::version::Version;

/// Of 200 rooms of the mixed profile: tiny, small, middle, large.
const SHARES: [usize; 4] = [40, 125, 31, 4];

/// A random sheet; about one in seven is one that numbers 1 to 9 refuse.
pub fn random_sheet(rng: &mut Rng, profile: Profile) -> Sheet {
    if rng.percent(2) {
        return terrace(rng);
    }
    let room = random_room(rng, profile, SHARES);
    let mut job = if is_large(&room) || rng.percent(85) {
        reached_job(rng, &room)
    } else {
        random_job(rng, &room)
    };
    if is_hall(&room) {
        job.version = Version::THREE;
    }
    let cells = room.cells() as u32;
    let mut sheet = Sheet {
        queue: 12 * cells,
        branch: (16 * (cells + 1)).min(ROUTE_LIMITS.branch as u32),
        lent: cells + rng.pick(&[0, 0, 0, 1, 100]),
        bytes: job.bytes(),
    };
    match rng.below(100) {
        0..25 => tighten(rng, &job, &room, &mut sheet),
        25..40 => damage_sheet(rng, &mut job, &mut sheet),
        40 | 41 => damage_buffers(rng, cells, &mut sheet),
        42 if rng.percent(20) => fill_up(rng, &mut job, &mut sheet),
        _ => {}
    }
    sheet
}

/// A sink whose goal needs some 64 attempts. A terrace one step high has about as many places to step up to it; all but the
/// farthest have a block in the clearance, and each is met as a conflict before that one is tried.
fn terrace(rng: &mut Rng) -> Sheet {
    let (wide, deep) = (rng.between(4, 6) as u16, rng.between(62, 64) as u16);
    let solid = |at| block(0, at, kind::SOLID);
    let mut job = default_job([wide, 2, deep], &[wire([0, 0, 0], facing::NONE)]);
    job.source.at = [wide - 1, 1, 0];
    for (x, z) in (1..wide).flat_map(|x| (0..deep - 1).map(move |z| (x, z))) {
        let foot = (x == 1) != (z == deep - 2);
        if x >= 2 && z < deep - 2 {
            job.blocks.push(solid([x, 0, z]));
        } else if foot && (x, z) != (wide - 1, deep - 2) {
            job.blocks.push(solid([x, 1, z]));
        }
    }
    if rng.percent(50) {
        std::mem::swap(&mut job.source, &mut job.sinks[0].port);
    }
    Sheet::of_route(job.bytes())
}

/// In a large room at most 1,500 blocks.
fn sheet_terrain(rng: &mut Rng, room: &Room) -> Vec<u8> {
    loop {
        let kinds = random_terrain(rng, room);
        let blocks = kinds.iter().filter(|kind| **kind != kind::AIR).count();
        if !is_large(room) || blocks <= 1_500 {
            return kinds;
        }
    }
}

pub(super) fn random_job(rng: &mut Rng, room: &Room) -> Job {
    let kinds = sheet_terrain(rng, room);
    let mut job = Job {
        config: random_config(rng, room),
        blocks: random_blocks(rng, room, &kinds),
        ..default_job(room.sides().map(|side| side as u16), &[])
    };
    let mut site = Site { room, kinds };
    if rng.percent(40) {
        site.add_devices(rng, &mut job.blocks);
    }
    let sinks = sink_count(rng, room);
    site.add_ports(rng, &mut job, sinks);
    if rng.percent(50) {
        site.add_other_nets(rng, &mut job);
    }
    if rng.percent(20) {
        rng.shuffle(&mut job.blocks);
    }
    job
}

/// The terrain as block records of one or more nodes, with facings.
fn random_blocks(rng: &mut Rng, room: &Room, kinds: &[u8]) -> Vec<Block> {
    let nodes = rng.pick(&[1, 1, 2, 3, 40, 65_536]);
    let placed = kinds.iter().enumerate().filter(|(_, k)| **k != kind::AIR);
    placed
        .map(|(cell, kind)| Block {
            node: rng.below(nodes) as u16,
            at: at(room.place(cell)),
            kind: *kind,
            facing: block_facing(rng, *kind),
        })
        .collect()
}

fn block_facing(rng: &mut Rng, kind: u8) -> u8 {
    match kind {
        kind::REPEATER => rng.pick(&[1, 2, 3, 4, 1, 2, 3, 4, 0, 5, 6]),
        _ if rng.percent(20) => rng.below(usize::from(facing::LAST) + 1) as u8,
        _ => facing::NONE,
    }
}

/// Few sinks in large rooms: the published Rust searches each joinable cell, with a copy of the room each time.
fn sink_count(rng: &mut Rng, room: &Room) -> usize {
    let most = match room.cells() {
        0..300 => MOST_SINKS,
        300..900 => 6,
        900..3_000 => 3,
        _ => 2,
    };
    let count = match rng.below(20) {
        0 => 0,
        1..5 => 1,
        5..14 => rng.between(2, 4),
        14..18 => rng.between(4, 8),
        _ => rng.between(8, MOST_SINKS),
    };
    count.min(most)
}

/// A job that is answered with a tree, if a few draws give one: most sheets should be.
fn reached_job(rng: &mut Rng, room: &Room) -> Job {
    let mut job = random_job(rng, room);
    for _ in 0..3 {
        drop_unreached(&mut job, room);
        if route_net_tree(&job, room, Limits::NONE).is_ok() {
            break;
        }
        job = random_job(rng, room);
    }
    job
}

/// Takes out sinks that can't be reached; the last one stays.
fn drop_unreached(job: &mut Job, room: &Room) {
    while job.sinks.len() > 1 {
        let Err(Refusal { number: 14, detail }) = route_net_tree(job, room, Limits::NONE) else {
            return;
        };
        let sinks = realize(job, room).map_or(Vec::new(), |ends| ends.sinks);
        let unreached = sinks
            .iter()
            .position(|sink| sink.approach == detail as usize);
        job.sinks.remove(unreached.unwrap_or(0));
    }
}

/// Brings the queue, the branch buffer or the node limit close to what the tree needs.
fn tighten(rng: &mut Rng, job: &Job, room: &Room, sheet: &mut Sheet) {
    let net = route_net_tree(job, room, Limits::NONE);
    if rng.percent(45) {
        let needed = net.as_ref().map_or(30, |net| net.most_waiting);
        sheet.queue = around(rng, needed).max(1) as u32;
    }
    if rng.percent(45) || net.is_err() {
        let needed = net.as_ref().map_or(8, |net| net.branch_cells());
        sheet.branch = around(rng, needed) as u32;
    }
    if rng.percent(15) {
        let mut job = job.clone();
        job.config.node_limit = rng.pick(&[0, 1, 10, 40, 150]);
        sheet.bytes = job.bytes();
    }
}

/// A sheet of version 1 of exactly 60,000 bytes, which is read, or of one byte more, which is not. Sinks, of five bytes there, are
/// repeated or taken out until reserved cells of three bytes each fill it exactly.
fn fill_up(rng: &mut Rng, job: &mut Job, sheet: &mut Sheet) {
    let length = MOST_BYTES + rng.below(2);
    if job.version.number != 1 || job.bytes().len() + 10 > length {
        return;
    }
    let missing = |job: &Job| length - job.bytes().len();
    let sink = job.sinks.first().copied().unwrap_or(job.source.into());
    let repeat = job.sinks.len() <= MOST_SINKS - 2;
    while missing(job) % 3 != 0 {
        if repeat {
            job.sinks.push(sink);
        } else {
            job.sinks.pop();
        }
    }
    let count = missing(job) / 3;
    job.reserved.extend(vec![job.source.at; count]);
    sheet.bytes = job.bytes();
}
