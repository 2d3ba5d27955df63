//! Lists of nets: the smallest inputs of each rule, and each refusal in its order.

use super::but;
use crate::Refusal;
use crate::lists::{List, NetRefusal};
use crate::nets::{LaidNets, ListAnswer};
use crate::room::{facing, kind};
use crate::samples::{block, block_power, default_job, wire};
use crate::sheet::{Job, Port};
use crate::tree::Mode;
use crate::version::Version;

type Example = (&'static str, List, ListAnswer);

/// A net of an empty room from a cell to a sink.
fn net(sides: [u16; 3], from: [u16; 3], sink: Port) -> Job {
    but(default_job(sides, &[sink]), |job| job.source.at = from)
}

fn plain(sides: [u16; 3], from: [u16; 3], to: [u16; 3]) -> Job {
    net(sides, from, wire(to, facing::NONE))
}

fn alone(sides: [u16; 3], at: [u16; 3]) -> Job {
    but(default_job(sides, &[]), |job| job.source.at = at)
}

fn list(jobs: &[Job]) -> List {
    List::ample(Mode::Published, jobs)
}

fn strict(jobs: &[Job]) -> List {
    List::ample(Mode::Strict, jobs)
}

fn refused(net: usize, number: u8, detail: u32) -> ListAnswer {
    let refusal = Refusal::new(number, detail);
    ListAnswer::Refused(NetRefusal { net, refusal })
}

/// Nets of one branch each, or of none, which occupy what their owners say.
fn laid(branches: &[&[u16]], owners: &[u32], kinds: &[u8], facings: &[(usize, u8)]) -> ListAnswer {
    let mut faced = vec![0; kinds.len()];
    for (cell, facing) in facings {
        faced[*cell] = *facing;
    }
    let of = |branch: &&[u16]| match branch.is_empty() {
        true => Vec::new(),
        false => vec![branch.to_vec()],
    };
    ListAnswer::Nets(LaidNets {
        nets: branches.iter().map(of).collect(),
        owners: owners.to_vec(),
        repeaters: Vec::new(),
        kinds: kinds.to_vec(),
        facings: faced,
    })
}

pub fn lists() -> Vec<Example> {
    let mut list = layings();
    list.push(many());
    list.extend(overlaps());
    list.extend(seen());
    list.extend(order());
    list.extend(buffers());
    list
}

/// What is laid.
fn layings() -> Vec<Example> {
    let mut l = net([6, 1, 1], [0; 3], block_power([5, 0, 0], facing::WEST));
    l.blocks.push(block(0, [5, 0, 0], kind::SOLID));
    let mut lever = net([3, 2, 1], [0, 1, 0], block_power([2, 1, 0], facing::WEST));
    lever.blocks.push(block(0, [1, 1, 0], kind::LEVER));
    let upper = plain([2, 2, 1], [0, 1, 0], [1, 1, 0]);
    let lower = plain([2, 2, 1], [0; 3], [1, 0, 0]);
    let run = plain([13, 1, 1], [12, 0, 0], [0; 3]);
    let repeated = match laid(
        &[&[12, 11, 10, 9, 8, 7, 6, 5, 4, 3, 2, 1, 0]],
        &[1; 13],
        &[3; 13],
        &[(8, 4)],
    ) {
        ListAnswer::Nets(mut laid) => {
            laid.repeaters = vec![8];
            laid.kinds[8] = kind::REPEATER;
            ListAnswer::Nets(laid)
        }
        other => other,
    };
    vec![
        (
            "sample l",
            list(&[l]),
            laid(
                &[&[0, 1, 2, 3, 4]],
                &[1, 1, 1, 1, 1, 0],
                &[3, 3, 3, 3, 5, 1],
                &[(4, 2)],
            ),
        ),
        (
            "a Lever at a BlockPower sink's terminal is gone",
            list(&[lever]),
            laid(
                &[&[1, 3]],
                &[0, 1, 0, 1, 0, 0],
                &[2, 3, 1, 5, 0, 0],
                &[(3, 2)],
            ),
        ),
        (
            "a net laid with no wire",
            list(&[upper.clone(), lower.clone()]),
            laid(&[&[1, 3], &[0, 2]], &[2, 1, 2, 1], &[2, 3, 2, 3], &[]),
        ),
        (
            "the other order: wire lies on wire",
            list(&[lower.clone(), upper.clone()]),
            laid(&[&[0, 2], &[1, 3]], &[1, 2, 1, 2], &[3, 3, 3, 3], &[]),
        ),
        ("a planned repeater", list(&[run]), repeated),
        (
            "a net without sinks",
            list(&[alone([2, 1, 1], [1, 0, 0])]),
            laid(&[&[]], &[0, 1], &[0, 3], &[]),
        ),
    ]
}

/// More nets than a byte can count, each a source alone.
fn many() -> Example {
    let sides = [20, 1, 15];
    let places = (0..20).flat_map(|x| (0..15).map(move |z| [x, 0, z]));
    let jobs: Vec<Job> = places.map(|at| alone(sides, at)).collect();
    let owners: Vec<u32> = (1..=300).collect();
    let nets = laid(&[&[][..]; 300], &owners, &[kind::REDSTONE_WIRE; 300], &[]);
    ("three hundred nets", list(&jobs), nets)
}

/// Number 16.
fn overlaps() -> Vec<Example> {
    let one = alone([1, 1, 1], [0; 3]);
    let sides = [1, 2, 3];
    let first = net(sides, [0; 3], wire([0, 1, 1], facing::SOUTH));
    let second = plain(sides, [0, 1, 0], [0, 0, 1]);
    vec![
        (
            "two sources in one cell",
            list(&[one.clone(), one.clone()]),
            refused(1, 16, 0),
        ),
        (
            "the first of two overlaps",
            list(&[one.clone(), one.clone(), one]),
            refused(1, 16, 0),
        ),
        (
            "a cell beneath an own terminal",
            list(&[first, second]),
            refused(1, 16, 1),
        ),
    ]
}

/// What a net sees of the others, before it and behind it.
fn seen() -> Vec<Example> {
    let sides = [9, 1, 1];
    let across = plain(sides, [0; 3], [8, 0, 0]);
    let middle = alone(sides, [4, 0, 0]);
    let sides = [1, 2, 3];
    let below = alone(sides, [0, 0, 1]);
    let above = plain(sides, [0, 1, 0], [0, 1, 2]);
    vec![
        (
            "a later net's end is in the way",
            list(&[across.clone(), middle.clone()]),
            refused(0, 14, 8),
        ),
        (
            "an earlier net is",
            list(&[middle, across]),
            refused(1, 14, 8),
        ),
        (
            "wire rests on another net's wire",
            list(&[below.clone(), above.clone()]),
            laid(
                &[&[], &[3, 4, 5]],
                &[0, 1, 0, 2, 2, 2],
                &[2, 3, 2, 3, 3, 3],
                &[],
            ),
        ),
        (
            "in strict mode it doesn't",
            strict(&[below, above]),
            refused(1, 14, 5),
        ),
    ]
}

/// Of two faults the one that is judged first tells its number.
fn order() -> Vec<Example> {
    let sides = [3, 2, 1];
    let good = plain(sides, [0; 3], [2, 0, 0]);
    let outside = net(sides, [0; 3], wire([2, 0, 0], facing::EAST));
    let faceless = net(sides, [0; 3], block_power([2, 0, 0], facing::NONE));
    let built = but(good.clone(), |job| {
        job.blocks.push(block(0, [1, 1, 0], kind::SOLID))
    });
    let twice = but(built.clone(), |job| {
        job.blocks.push(block(1, [1, 1, 0], kind::LEVER))
    });
    let turned = but(built.clone(), |job| job.blocks[0].facing = facing::LAST);
    let dear = but(good.clone(), |job| job.config.stair = 100_001);
    let long = but(good.clone(), |job| {
        job.version = Version::TWO;
        job.run = 16;
    });
    let off = but(good.clone(), |job| job.reserved.push([3, 0, 0]));
    let unknown = but(good.clone(), |job| job.source.kind = 2);
    let other = plain([65, 2, 1], [0; 3], [0; 3]);
    let cut = |bytes: usize| {
        but(list(&[good.clone(), good.clone()]), |list| {
            list.bytes.truncate(bytes)
        })
    };
    let size = good.bytes().len();
    let third = but(good.clone(), |job| job.version = Version::THREE);
    let again = but(built.clone(), |job| job.blocks.push(job.blocks[0]));
    let same = |number, jobs: &[Job]| ("two faults", list(jobs), refused(1, number, 0));
    let first = |number, job: &Job| {
        (
            "net 0's",
            list(&[job.clone(), other.clone()]),
            refused(0, number, 0),
        )
    };
    vec![
        first(2, &other),
        first(2, &alone([3, 0, 1], [0; 3])),
        first(2, &alone([64, 5, 64], [0; 3])),
        first(3, &dear),
        first(4, &off),
        first(5, &unknown),
        ("a block twice in a node", list(&[again]), refused(0, 7, 3)),
        (
            "no bytes",
            but(list(std::slice::from_ref(&good)), |list| list.bytes.clear()),
            refused(0, 1, 0),
        ),
        (
            "net 0's 9 before net 1's 1",
            list(&[outside.clone(), other.clone()]),
            refused(0, 9, 1),
        ),
        (
            "net 0's 7 before net 1's 1",
            list(&[twice.clone(), other.clone()]),
            refused(0, 7, 3),
        ),
        (
            "net 0's 8 before net 1's 2",
            list(&[faceless.clone(), other.clone()]),
            refused(0, 8, 1),
        ),
        (
            "net 1's 9",
            list(&[good.clone(), outside]),
            refused(1, 9, 1),
        ),
        (
            "net 1's 8",
            list(&[good.clone(), faceless]),
            refused(1, 8, 1),
        ),
        (
            "other sides",
            list(&[good.clone(), other]),
            refused(1, 1, 0),
        ),
        (
            "a block more",
            list(&[good.clone(), built.clone()]),
            refused(1, 1, 0),
        ),
        (
            "a block less",
            list(&[built.clone(), good.clone()]),
            refused(1, 1, 0),
        ),
        (
            "a block that faces otherwise",
            list(&[built, turned]),
            refused(1, 1, 0),
        ),
        same(3, &[good.clone(), dear]),
        same(3, &[good.clone(), long]),
        same(4, &[good.clone(), off]),
        same(5, &[good.clone(), unknown]),
        (
            "the second sheet cut off",
            cut(2 * size - 1),
            refused(1, 1, 0),
        ),
        ("cut off within its head", cut(size + 3), refused(1, 1, 0)),
        ("the first sheet cut off", cut(size - 1), refused(0, 1, 0)),
        (
            "a net's own 14 after all are judged",
            list(&[good.clone(), third.clone()]),
            refused(0, 14, 4),
        ),
        (
            "bytes left over are one more sheet",
            but(list(&[third]), |list| list.bytes.push(1)),
            refused(1, 1, 0),
        ),
    ]
}

/// What is too short: 6 in its place, 13 and 15 with their net.
fn buffers() -> Vec<Example> {
    let sides = [9, 1, 5];
    let one = plain(sides, [0; 3], [8, 0, 0]);
    let other = plain(sides, [0, 0, 4], [8, 0, 4]);
    let outside = net(sides, [0; 3], wire([8, 0, 0], facing::EAST));
    let both = || list(&[one.clone(), other.clone()]);
    let mixed = || list(&[one.clone(), outside.clone()]);
    vec![
        (
            "fifteen lengths",
            but(both(), |list| list.lengths = 15),
            refused(0, 6, 0),
        ),
        (
            "thirty-one lengths",
            but(both(), |list| list.lengths = 31),
            refused(1, 6, 0),
        ),
        (
            "before that net's 9",
            but(mixed(), |list| list.lengths = 31),
            refused(1, 6, 0),
        ),
        (
            "buffers under V",
            but(both(), |list| list.lent = 44),
            refused(0, 6, 0),
        ),
        (
            "no queue place",
            but(both(), |list| list.queue = 0),
            refused(0, 6, 0),
        ),
        (
            "a queue of one place",
            but(both(), |list| list.queue = 1),
            refused(0, 13, 1),
        ),
        (
            "a branch buffer for less than a net",
            but(both(), |list| list.branch = 8),
            refused(0, 15, 1),
        ),
        (
            "what is left of it for the second",
            but(both(), |list| list.branch = 17),
            refused(1, 15, 1),
        ),
    ]
}

/// The examples without their answers.
pub fn list_cases() -> Vec<List> {
    lists().into_iter().map(|(_, case, _)| case).collect()
}
