//! Random lists of nets over one room.

use super::damage::damage_sheet;
use super::sheets::random_job;
use super::site::{Site, is_large};
use super::{Profile, around, is_hall, random_config, random_room, set_limits};
use crate::lists::{LENGTHS, List, NetRefusal};
use crate::rng::Rng;
use crate::room::{Room, kind};
use crate::sheet::{Job, Sheet};
use crate::tree::Mode;
use crate::version::Version;

/// Of 200 rooms of the mixed profile: tiny, small, middle, large.
const SHARES: [usize; 4] = [50, 125, 23, 2];

/// A random list of nets, most of which are routed; about one in five is damaged: a net that numbers 1 to 9 refuse, other blocks or sides than the first,
/// bytes cut off, left over or changed, or too little lent.
pub fn random_list(rng: &mut Rng, profile: Profile) -> List {
    let room = random_room(rng, profile, SHARES);
    let mut jobs = random_jobs(rng, &room);
    let mode = rng.pick(&[Mode::Published, Mode::Published, Mode::Strict]);
    if rng.percent(25) {
        jobs.sort_by_key(|job| std::cmp::Reverse(job.sinks.len())); // as the published Rust would take them
    }
    if rng.percent(85) {
        drop_refused(mode, &mut jobs);
    }
    let mut list = List::ample(mode, &jobs);
    match rng.below(100) {
        0..20 => damage_list(rng, &mut jobs, &mut list),
        20..35 => tighten(rng, &mut list),
        _ => {}
    }
    list
}

/// What the jobs of a list have in common.
#[derive(Clone, Copy)]
struct Manner {
    /// They have no lists of their own, and one config.
    plain: bool,
    /// The ends of each are close to each other.
    near: bool,
}

/// Jobs over the blocks of one, often without lists of their own and at one config. Sometimes two of them share an end.
fn random_jobs(rng: &mut Rng, room: &Room) -> Vec<Job> {
    let near = !is_large(room) && rng.percent(50);
    let count = match (is_large(room), near) {
        (true, _) => rng.between(1, 3),
        (_, true) => rng.pick(&[4, 6, 8, 10, 12, 14, 16]),
        _ => rng.pick(&[1, 2, 3, 4, 5, 6, 8, 10]),
    };
    let mut first = random_job(rng, room);
    let plain = rng.percent(60);
    let manner = Manner { plain, near };
    let mut jobs: Vec<Job> = (0..count)
        .map(|_| another_job(rng, room, &mut first, manner))
        .collect();
    for job in &mut jobs {
        job.blocks.clone_from(&first.blocks); // with those that later ends brought along
    }
    if count > 1 && rng.percent(8) {
        jobs[1].source = jobs[0].source;
    }
    set_versions(rng, room, &mut jobs);
    jobs
}

/// The sheets of half the lists are of version 1; in others each has its own version, and where that carries limits they are any.
fn set_versions(rng: &mut Rng, room: &Room, jobs: &mut [Job]) {
    let versions = match (is_hall(room), rng.percent(50)) {
        (true, _) => [Version::THREE; 4],
        (false, true) => [Version::ONE; 4],
        (false, false) => [Version::ONE, Version::TWO, Version::TWO, Version::THREE],
    };
    for job in jobs {
        job.version = rng.pick(&versions);
        if job.version.limits {
            set_limits(rng, job);
        }
    }
}

/// A job with ends of its own. Blocks that they bring along are put into `first`.
fn another_job(rng: &mut Rng, room: &Room, first: &mut Job, manner: Manner) -> Job {
    let mut kinds = vec![kind::AIR; room.cells()];
    for block in &first.blocks {
        kinds[room.cell(block.at.into()).expect("a lawful job")] = block.kind;
    }
    let mut site = Site { room, kinds };
    let mut job = Job {
        sinks: Vec::new(),
        conductors: Vec::new(),
        clearances: Vec::new(),
        terminals: Vec::new(),
        reserved: Vec::new(),
        ..first.clone()
    };
    if manner.near {
        let sinks = rng.pick(&[0, 1, 1, 1, 1, 2]);
        site.add_near_ports(rng, &mut job, sinks);
    } else {
        let sinks = rng.pick(&[0, 1, 1, 1, 2, 2, 3, 5]);
        site.add_ports(rng, &mut job, sinks);
    }
    if !manner.plain {
        if rng.percent(30) {
            site.add_other_nets(rng, &mut job);
        }
        job.config = random_config(rng, room);
    }
    first.blocks.clone_from(&job.blocks);
    job
}

/// Takes out nets that are refused; the last one stays, and so do two that share a cell.
fn drop_refused(mode: Mode, jobs: &mut Vec<Job>) {
    while jobs.len() > 1 {
        match List::ample(mode, jobs).plain_nets() {
            Err(NetRefusal { net, refusal }) if refusal.number != 16 => jobs.remove(net),
            _ => return,
        };
    }
}

/// One net is damaged as a sheet is, or differs from the first in its room; or the list's bytes are, or what is lent.
fn damage_list(rng: &mut Rng, jobs: &mut [Job], list: &mut List) {
    let net = rng.below(jobs.len());
    let mut bytes: Vec<Vec<u8>> = jobs.iter().map(Job::bytes).collect();
    match rng.below(23) {
        0..12 => {
            let mut sheet = Sheet::of_route(Vec::new());
            damage_sheet(rng, &mut jobs[net], &mut sheet);
            bytes[net] = sheet.bytes;
        }
        12..15 => {
            other_room(rng, &mut jobs[net]);
            bytes[net] = jobs[net].bytes();
        }
        15 => {
            let last = bytes.last_mut().expect("a list has a sheet");
            last.truncate(rng.below(last.len()));
        }
        16 => bytes.push(
            (0..rng.between(1, 9))
                .map(|_| rng.below(256) as u8)
                .collect(),
        ),
        17 => bytes.clear(),
        18..20 => change_bytes(rng, &mut bytes[net]),
        _ => shorten(rng, list),
    }
    list.bytes = bytes.concat();
}

/// One to three bytes of a sheet become any others.
fn change_bytes(rng: &mut Rng, sheet: &mut [u8]) {
    for _ in 0..rng.between(1, 3) {
        sheet[rng.below(sheet.len())] = rng.below(256) as u8;
    }
}

/// Other sides, or blocks in another order, one more or one less, or one of another value.
fn other_room(rng: &mut Rng, job: &mut Job) {
    let blocks = job.blocks.len();
    match rng.below(5) {
        0 => job.sides[rng.below(3)] += 1,
        1 if blocks > 1 => job.blocks.swap(0, blocks - 1),
        2 if blocks > 0 => drop(job.blocks.pop()),
        3 if blocks > 0 => job.blocks[0].facing ^= 1,
        _ => {
            let mut block = crate::samples::block(0, job.source.at, kind::SOLID);
            block.node = 77;
            job.blocks.push(block);
        }
    }
}

/// Too little of one buffer.
fn shorten(rng: &mut Rng, list: &mut List) {
    match rng.below(3) {
        0 => list.queue = 0,
        1 => list.lent = rng.below(list.lent as usize + 1) as u32,
        _ => list.lengths = rng.below(list.lengths as usize + 1) as u32,
    }
}

/// Brings the queue or the branch buffer close to what the nets need.
fn tighten(rng: &mut Rng, list: &mut List) {
    let routed = list.plain_nets();
    let nets = routed.map_or(Vec::new(), |routed| routed.list);
    if rng.percent(50) {
        let needed = nets
            .iter()
            .map(|(_, net)| net.branch_cells())
            .sum::<usize>();
        list.branch = around(rng, needed.max(3)) as u32;
    } else {
        let waiting = nets.iter().map(|(_, net)| net.most_waiting);
        let needed = waiting.max().unwrap_or(20);
        list.queue = around(rng, needed).max(1) as u32;
    }
    if rng.percent(20) {
        list.lengths += rng.below(2 * LENGTHS) as u32;
        list.lent += rng.below(3) as u32;
    }
}
