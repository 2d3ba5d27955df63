//! Sheets at any limits: the row of ten cells that docs/RULES.md has, what each limit does by itself, each reason of number 3 and the order
//! in which it is judged, and what version 2 has in its frame.

use super::trees::{refused, sheet, tree};
use super::{Mend, but};
use crate::generate::count_places;
use crate::limits::LimitSheet;
use crate::room::{facing, kind};
use crate::samples::{TAIL_SHEET, block, block_power, default_job, wire};
use crate::sheet::{Job, MOST_SINKS, Port, Sheet, TreeAnswer};
use crate::text::parse_hex;
use crate::version::Version;

pub type Limited = (&'static str, Sheet, TreeAnswer);

pub fn limits() -> Vec<Limited> {
    let mut list = rows();
    list.extend(sinks_apart());
    list.extend(number_three());
    list.extend(in_order());
    list.extend(frames());
    list
}

/// The same without their answers.
pub fn limit_cases() -> Vec<LimitSheet> {
    let cases = limits().into_iter();
    cases.map(|(_, case, _)| LimitSheet(case)).collect()
}

/// A job of version 2 with this run limit and these sinks, each with its tail limit.
fn limited(sides: [u16; 3], run: u8, sinks: &[(Port, u8)]) -> Job {
    let ports: Vec<_> = sinks.iter().map(|(port, _)| *port).collect();
    let mut job = default_job(sides, &ports);
    job.version = Version::TWO;
    job.run = run;
    for (sink, (_, tail)) in job.sinks.iter_mut().zip(sinks) {
        sink.tail = *tail;
    }
    job
}

fn at(x: u16) -> Port {
    wire([x, 0, 0], facing::NONE)
}

/// So many cells along x, from the first to the last.
fn row(cells: u16, run: u8, tail: u8) -> Sheet {
    sheet(&limited([cells, 1, 1], run, &[(at(cells - 1), tail)]))
}

/// A branch along x from cell 0 to this one.
fn along(last: u16, repeaters: &[u16]) -> TreeAnswer {
    let branch: Vec<u16> = (0..=last).collect();
    tree(&[&branch], u32::from(last) + 1, repeaters)
}

fn rows() -> Vec<Limited> {
    let told = parse_hex(TAIL_SHEET).expect("a sheet in hex");
    let power = limited([10, 1, 1], 12, &[(block_power([9, 0, 0], facing::WEST), 1)]);
    let power = but(power, |job| {
        job.blocks.push(block(0, [9, 0, 0], kind::SOLID))
    });
    vec![
        ("a tail of 3", Sheet::of_route(told), along(9, &[6])),
        ("run 4, tail 3", row(10, 4, 3), along(9, &[5, 7])),
        ("run 12, tail 15", row(10, 12, 15), along(9, &[])),
        ("run 1, tail 1", row(10, 1, 1), along(9, &[2, 4, 6, 8])),
        (
            "12 and 8 in version 2, as in version 1",
            row(10, 12, 8),
            along(9, &[1]),
        ),
        ("run 15: none at 15 steps", row(16, 15, 15), along(15, &[])),
        ("run 15: one at 16", row(17, 15, 15), along(16, &[15])),
        (
            "a block-power sink's tail limit is not looked at",
            sheet(&power),
            along(8, &[]),
        ),
        (
            "no sinks: the run limit alone",
            sheet(&limited([3, 1, 1], 1, &[])),
            tree(&[], 1, &[]),
        ),
    ]
}

/// Two sinks of one row, the far one first: each has its own tail limit, they go in sheet order, and a repeater met is a reset.
fn sinks_apart() -> [Limited; 5] {
    let two = |far: u8, near: u8| {
        let sinks = [(at(12), far), (at(6), near)];
        sheet(&limited([13, 1, 1], 15, &sinks))
    };
    let branches: [Vec<u16>; 2] = [(5..=12).collect(), (0..=6).collect()];
    let answer = |repeaters: &[u16]| tree(&branches.each_ref().map(Vec::as_slice), 13, repeaters);
    [
        ("two tails of 15", two(15, 15), answer(&[])),
        ("the far one's tail of 3", two(3, 15), answer(&[9])),
        ("the near one's tail of 3", two(15, 3), answer(&[3])),
        ("two tails of 3", two(3, 3), answer(&[3, 9])),
        (
            "8 for the far one, which serves both",
            two(8, 3),
            answer(&[4]),
        ),
    ]
}

/// A full job of version 2 with one limit at fault.
fn number_three() -> Vec<Limited> {
    let sinks = [
        (at(2), 8),
        (block_power([1, 0, 0], facing::EAST), 8),
        (at(1), 8),
    ];
    let full = limited([3, 1, 1], 12, &sinks);
    let faults: [(&'static str, Mend<Job>); 7] = [
        ("no run", |job| job.run = 0),
        ("a run of 16", |job| job.run = 16),
        ("a run of 255", |job| job.run = 255),
        ("no tail", |job| job.sinks[0].tail = 0),
        ("a tail of 16", |job| job.sinks[0].tail = 16),
        ("a block-power sink's tail", |job| job.sinks[1].tail = 0),
        ("the last sink's tail", |job| job.sinks[2].tail = 255),
    ];
    let fault = |(name, fault): (&'static str, Mend<Job>)| {
        (name, sheet(&but(full.clone(), fault)), refused(3, 0))
    };
    faults.into_iter().map(fault).collect()
}

/// Faults mended one by one in the order in which they are judged.
fn in_order() -> Vec<Limited> {
    let sinks = [(at(3), 0), (at(3), 8)];
    let mut job = limited([4, 1, 1], 0, &sinks);
    job.sides = [65, 1, 1];
    job.blocks.push(block(0, [3, 0, 1], kind::SOLID));
    job.sinks[0].port.at = [4, 0, 0];
    job.sinks[0].port.kind = 2;
    job.sinks[1].port.at = [4, 0, 0];
    let mends: [(u8, Mend<Job>); 7] = [
        (2, |job| job.sides = [4, 1, 1]),
        (3, |job| job.run = 12),
        (4, |job| job.blocks.clear()),
        (4, |job| job.sinks[0].port.at = [3, 0, 0]),
        (5, |job| job.sinks[0].port.kind = 0),
        (3, |job| job.sinks[0].tail = 1),
        (4, |job| job.sinks[1].port.at = [3, 0, 0]),
    ];
    let mut list = Vec::new();
    for (number, mend) in mends {
        let name = "version 2 judges 2, 3 of the run, records; in a sink 4, 5, 3";
        list.push((name, sheet(&job), refused(number, 0)));
        mend(&mut job);
    }
    let branch: &[u16] = &[0, 1, 2, 3];
    list.push(("all mended", sheet(&job), tree(&[branch, &[2, 3]], 4, &[2])));
    list
}

/// What number 1 has to see in version 2: its own lengths, and no other version's.
fn frames() -> Vec<Limited> {
    let job = limited([10, 1, 1], 12, &[(at(9), 3)]);
    let damaged = |damage: fn(&Job, &mut Vec<u8>)| {
        let mut bytes = job.bytes();
        damage(&job, &mut bytes);
        (Sheet::of_route(bytes), refused(1, 0))
    };
    let faults: [(&'static str, fn(&Job, &mut Vec<u8>)); 8] = [
        ("version 2, told as 1", |_, bytes| bytes[0] = 1),
        ("version 2, told as 3", |_, bytes| bytes[0] = 3),
        ("version 1, told as 2", |job, bytes| {
            *bytes = but(job.clone(), |job| job.version = Version::ONE).bytes();
            bytes[0] = 2;
        }),
        ("without the last tail limit", |_, bytes| {
            bytes.truncate(bytes.len() - 1);
            bytes[4] -= 1;
        }),
        ("cut short", |_, bytes| bytes.truncate(bytes.len() - 1)),
        ("a byte left over", |_, bytes| {
            bytes.push(8);
            bytes[4] += 1;
        }),
        ("a block too many counted", |job, bytes| {
            bytes[count_places(job)[0]] += 1;
        }),
        ("a sink too many counted", |job, bytes| {
            bytes[count_places(job)[5]] += 1;
        }),
    ];
    let mut list: Vec<Limited> = Vec::new();
    for (name, damage) in faults {
        let (case, answer) = damaged(damage);
        list.push((name, case, answer));
    }
    let full = limited([2, 1, 1], 1, &[(at(1), 1); MOST_SINKS]);
    let branches = [[0, 1].as_slice(); MOST_SINKS];
    list.push(("16 sinks", sheet(&full), tree(&branches, 2, &[])));
    let more = limited([2, 1, 1], 1, &[(at(1), 1); MOST_SINKS + 1]);
    list.push(("17 sinks", sheet(&more), refused(1, 0)));
    list
}
