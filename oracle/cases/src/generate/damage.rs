//! Cases that the numbers 1 to 9 refuse.

use super::is_hall;
use crate::rng::Rng;
use crate::room::{Ranges, Room, facing, kind, port};
use crate::search::Search;
use crate::sheet::{HEAD, Job, MOST_SINKS, Port, Sheet};
use crate::version::{MOST_LIMIT, Version};

/// Sides that a sheet of version 1 or 2 can't have: 0, over 64, or more than 16,384 cells; the last is the room of least cells above.
const BAD_SIDES: [[u16; 3]; 6] = [
    [0, 1, 1],
    [3, 0, 2],
    [65, 1, 1],
    [2, 3, 255],
    [64, 5, 64],
    [23, 23, 31],
];

/// Sides that are no room: 0, or more than 65,536 cells. They can be stored, a byte each.
const NO_ROOMS: [[u16; 3]; 6] = [
    [0, 1, 1],
    [3, 0, 2],
    [255, 255, 2],
    [2, 129, 255],
    [41, 40, 40],
    [64, 200, 6],
];

/// The same with sides over 300; some have a low byte that would be one.
const NO_HALLS: [[u16; 3]; 6] = [
    [300, 0, 1],
    [301, 1, 1],
    [2, 3, 256 + 64],
    [257, 256, 1],
    [300, 9, 25],
    [1, 65_535, 1],
];

fn no_room(rng: &mut Rng, is_hall: bool) -> [u16; 3] {
    rng.pick(if is_hall { &NO_HALLS } else { &NO_ROOMS })
}

/// One or two faults of a search.
pub fn damage_search(rng: &mut Rng, room: &Room, case: &mut Search) {
    let faults = if rng.percent(25) { 2 } else { 1 };
    for _ in 0..faults {
        damage_search_once(rng, room, case);
    }
}

fn damage_search_once(rng: &mut Rng, room: &Room, case: &mut Search) {
    let cells = room.cells() as u32;
    let outside = rng.pick(&[cells, cells + 1, u32::MAX]);
    match rng.below(10) {
        0 | 1 => case.sides = no_room(rng, is_hall(room)),
        2 | 3 => damage_config(rng, &Ranges::WIDE, &mut case.config),
        4 => case.kinds.push(kind::AIR),
        5 => case.kinds.truncate(rng.pick(&[0, room.cells() - 1])),
        6 if rng.percent(50) => case.lent = rng.pick(&[0, cells - 1]),
        6 => case.queue = 0,
        7 => {
            if let Some(last) = case.kinds.last_mut() {
                *last = rng.pick(&[kind::LAST + 1, 255]);
            }
        }
        8 => case.start = outside,
        _ => case.goal = outside,
    }
}

pub fn damage_config(rng: &mut Rng, ranges: &Ranges, config: &mut crate::room::Config) {
    let over = rng.pick(&[ranges.cost + 1, u32::MAX]);
    match rng.below(4) {
        0 => config.node_limit = rng.pick(&[ranges.nodes + 1, u32::MAX]),
        1 => config.horizontal = over,
        2 => config.stair = over,
        _ => config.support = over,
    }
}

/// One to three faults of a job, or one of its bytes; sometimes the buffers are too short as well.
pub fn damage_sheet(rng: &mut Rng, job: &mut Job, sheet: &mut Sheet) {
    if rng.percent(60) {
        for _ in 0..rng.pick(&[1, 1, 1, 2, 3]) {
            damage_job(rng, job);
        }
        sheet.bytes = job.bytes();
    } else {
        sheet.bytes = job.bytes();
        damage_bytes(rng, job, &mut sheet.bytes);
    }
    if rng.percent(15) {
        damage_buffers(rng, 1, sheet);
    }
}

/// No place in the queue, or other buffers under V: number 6.
pub fn damage_buffers(rng: &mut Rng, cells: u32, sheet: &mut Sheet) {
    if rng.percent(50) {
        sheet.queue = 0;
    } else {
        sheet.lent = rng.pick(&[0, cells - 1]);
    }
}

fn damage_job(rng: &mut Rng, job: &mut Job) {
    match rng.below(18) {
        0 | 1 if job.version == Version::THREE => job.sides = no_room(rng, true),
        0 | 1 => job.sides = rng.pick(&BAD_SIDES),
        2 | 3 => damage_config(rng, &job.version.ranges, &mut job.config),
        4..8 => {
            for _ in 0..rng.pick(&[1, 1, 2]) {
                damage_record(rng, job);
            }
        }
        8..12 => repeat_block(rng, job),
        12..17 => damage_ports(rng, job),
        _ => too_many_sinks(job),
    }
}

/// A record of a sheet: its position, and its codes, each with bad values.
struct Record<'a> {
    at: &'a mut [u16; 3],
    codes: Vec<(&'a mut u8, &'static [u8])>,
}

fn block_records(job: &mut Job) -> Vec<Record<'_>> {
    let blocks = job.blocks.iter_mut().map(|block| Record {
        at: &mut block.at,
        codes: vec![
            (&mut block.kind, &[kind::AIR, kind::LAST + 1, 255]),
            (&mut block.facing, &[facing::LAST + 1, 255]),
        ],
    });
    blocks.collect()
}

fn port_records(job: &mut Job) -> Vec<Record<'_>> {
    let sinks = job.sinks.iter_mut().map(|sink| &mut sink.port);
    let ports = std::iter::once(&mut job.source).chain(sinks);
    let ports = ports.map(|port| Record {
        at: &mut port.at,
        codes: vec![
            (&mut port.kind, &[port::LAST + 1, 255]),
            (&mut port.facing, &[facing::LAST + 1, 255]),
        ],
    });
    ports.collect()
}

fn position_records(job: &mut Job) -> Vec<Record<'_>> {
    let lists = [
        &mut job.conductors,
        &mut job.clearances,
        &mut job.terminals,
        &mut job.reserved,
    ];
    let bare = |at| Record {
        at,
        codes: Vec::new(),
    };
    lists.into_iter().flatten().map(bare).collect()
}

/// A record with a position outside, with an unknown code or Air, or with both: numbers 4 and 5.
fn damage_record(rng: &mut Rng, job: &mut Job) {
    let sides = job.sides;
    let records = rng.pick(&[block_records, port_records, position_records]);
    let mut records = records(job);
    if records.is_empty() {
        return;
    }
    let chosen = rng.below(records.len());
    let Record { at, codes } = &mut records[chosen];
    let fault = rng.below(4);
    if fault < 2 || codes.is_empty() {
        let axis = rng.below(3);
        at[axis] = rng.pick(&[sides[axis], 255]);
    }
    if fault > 0 && !codes.is_empty() {
        let chosen = rng.below(codes.len());
        let (code, bad) = &mut codes[chosen];
        **code = rng.pick(bad);
    }
}

/// Two blocks in one cell, of one node or of two: number 7.
fn repeat_block(rng: &mut Rng, job: &mut Job) {
    for _ in 0..rng.between(1, 3) {
        if job.blocks.is_empty() {
            return;
        }
        let mut block = rng.pick(&job.blocks);
        block.node = block.node.wrapping_add(rng.pick(&[0, 1, 7, u16::MAX]));
        block.kind = rng.between(1, usize::from(kind::LAST)) as u8;
        let place = rng.below(job.blocks.len() + 1);
        job.blocks.insert(place, block);
    }
}

/// Some ports that numbers 8 and 9 refuse, the source often among them.
fn damage_ports(rng: &mut Rng, job: &mut Job) {
    let last = job.sides.map(|side| side.wrapping_sub(1));
    for _ in 0..rng.between(1, 3) {
        let chosen = rng.below(job.sinks.len() + 2);
        let sink = job.sinks.get_mut(chosen);
        let port = sink.map_or(&mut job.source, |sink| &mut sink.port);
        if rng.percent(40) {
            turn_port(rng, port);
        } else {
            push_out_port(rng, port, last);
        }
    }
}

/// A BlockPower port without horizontal facing: number 8.
fn turn_port(rng: &mut Rng, port: &mut Port) {
    port.kind = port::BLOCK_POWER;
    port.facing = rng.pick(&[facing::NONE, facing::LAST - 1, facing::LAST]);
}

/// A port at a wall that looks out of the room: number 9.
fn push_out_port(rng: &mut Rng, port: &mut Port, last: [u16; 3]) {
    let (axis, at, facing) = rng.pick(&[
        (2, 0, facing::NORTH),
        (0, last[0], facing::EAST),
        (2, last[2], facing::SOUTH),
        (0, 0, facing::WEST),
    ]);
    port.at[axis] = at;
    port.kind = rng.pick(&[port::WIRE, port::BLOCK_POWER]);
    port.facing = facing;
}

/// A limit that is none, of the run or of a sink: number 3. Sometimes the sink has another fault as well.
pub fn damage_limits(rng: &mut Rng, job: &mut Job) {
    let last = job.sides;
    let bad = rng.pick(&[0, MOST_LIMIT + 1, 255]);
    let chosen = rng.below(job.sinks.len() + 1);
    let Some(sink) = job.sinks.get_mut(chosen) else {
        job.run = bad;
        return;
    };
    sink.tail = bad;
    match rng.below(5) {
        0 => sink.port.at[0] = last[0],
        1 => sink.port.facing = facing::LAST + 1,
        _ => {}
    }
}

fn too_many_sinks(job: &mut Job) {
    let sink = job.sinks.first().copied().unwrap_or(job.source.into());
    job.sinks.resize(MOST_SINKS + 1, sink);
}

/// Number 1 mostly; a changed byte can give anything.
fn damage_bytes(rng: &mut Rng, job: &Job, bytes: &mut Vec<u8>) {
    match rng.below(10) {
        0 => bytes.truncate(rng.below(bytes.len())),
        1 => {
            bytes.truncate(rng.between(HEAD, bytes.len() - 1));
            set_length(bytes, 0);
        }
        2 => {
            let others = match job.version.number {
                1 => [0, 2, 255],
                2 => [1, 3, 255],
                _ => [1, 2, 4],
            };
            bytes[0] = rng.pick(&others);
        }
        3 => set_length(bytes, rng.pick(&[1, u32::MAX])),
        4 => bytes.push(0),
        5 => {
            bytes.push(0);
            set_length(bytes, 0);
        }
        6 | 7 => {
            let count = rng.pick(&count_places(job));
            bytes[count] = bytes[count].wrapping_add(rng.pick(&[1, 255]));
        }
        _ => {
            let place = rng.below(bytes.len());
            bytes[place] ^= 1 << rng.below(8);
        }
    }
}

/// Writes the length of the rest, off by `by`.
fn set_length(bytes: &mut [u8], by: u32) {
    let length = (bytes.len() - HEAD) as u32;
    bytes[1..HEAD].copy_from_slice(&length.wrapping_add(by).to_be_bytes());
}

/// Where the low byte of each count stands.
pub fn count_places(job: &Job) -> [usize; 6] {
    let version = &job.version;
    let position = version.position_bytes();
    let blocks = version.lists_at() + 1;
    let conductors = blocks + 2 + version.block_bytes() * job.blocks.len();
    let clearances = conductors + 2 + position * job.conductors.len();
    let terminals = clearances + 2 + position * job.clearances.len();
    let reserved = terminals + 2 + position * job.terminals.len();
    let sinks = reserved + 1 + position * job.reserved.len() + version.source_bytes();
    [blocks, conductors, clearances, terminals, reserved, sinks]
}
