//! The examples that are sheets.

use super::{Mend, but};
use crate::Refusal;
use crate::generate::count_places;
use crate::room::{Config, Ranges, facing, kind};
use crate::samples::{block, block_power, default_job, wire};
use crate::sheet::{Block, Job, MOST_SINKS, Port, Sheet, TreeAnswer};

pub fn sheets() -> Vec<(&'static str, Sheet, TreeAnswer)> {
    let mut list = tree_readings();
    list.push(zigzag());
    list.extend(fork());
    list.extend(number_one());
    list.extend(record_refusals());
    list.extend(number_six());
    list.extend(number_seven());
    list.extend(numbers_eight_and_nine());
    list.extend(numbers_thirteen_to_fifteen());
    list.extend(tree_order());
    list.extend(room_limits());
    list.extend(sink_limits());
    list.extend(config_limits());
    list.extend(counts_past_the_end());
    list
}

pub fn tree(branches: &[&[u16]], occupied: u32, repeaters: &[u16]) -> TreeAnswer {
    TreeAnswer::Tree {
        branches: branches.iter().map(|branch| branch.to_vec()).collect(),
        occupied,
        repeaters: repeaters.to_vec(),
    }
}

pub fn refused(number: u8, detail: u32) -> TreeAnswer {
    TreeAnswer::Refused(Refusal::new(number, detail))
}

pub fn sheet(job: &Job) -> Sheet {
    Sheet::of_route(job.bytes())
}

fn blocked_by(sides: [u16; 3], sinks: &[Port], blocks: &[Block]) -> Job {
    Job {
        blocks: blocks.to_vec(),
        ..default_job(sides, sinks)
    }
}

/// A sink at (x, 0, 0) without facing.
fn plain_sink(x: u16) -> Port {
    wire([x, 0, 0], facing::NONE)
}

fn tree_readings() -> Vec<(&'static str, Sheet, TreeAnswer)> {
    let solid_source = blocked_by([3, 1, 1], &[], &[block(0, [0, 0, 0], kind::SOLID)]);
    let cut_off = but(default_job([5, 1, 1], &[plain_sink(4)]), |job| {
        job.conductors.push([1, 0, 0]);
    });
    let joined = default_job([5, 1, 1], &[plain_sink(4), plain_sink(2)]);
    let out_of_room = but(default_job([2, 1, 1], &[plain_sink(1)]), |job| {
        job.source.facing = facing::WEST;
    });
    vec![
        (
            "no sinks: the source's kind isn't looked at",
            sheet(&solid_source),
            tree(&[], 1, &[]),
        ),
        (
            "a branch can hold a cell twice and have V + 1 cells",
            sheet(&default_job([3, 1, 1], &[wire([1, 0, 0], facing::EAST)])),
            tree(&[&[0, 1, 2, 1]], 3, &[]),
        ),
        (
            "another net's conductor and its keepout are blocked",
            sheet(&cut_off),
            refused(14, 4),
        ),
        (
            "the nearer sink goes first and its last cell isn't joinable; branches come in sheet order",
            sheet(&joined),
            tree(&[&[1, 2, 3, 4], &[0, 1, 2]], 5, &[]),
        ),
        (
            "a source has no approach, so none outside",
            sheet(&out_of_room),
            tree(&[&[0, 1]], 2, &[]),
        ),
    ]
}

/// A way of one cell's width: 13 steps without a straight cell, then straight on to a BlockPower sink, which has no tail.
fn zigzag() -> (&'static str, Sheet, TreeAnswer) {
    let steps = (0..7).flat_map(|i| [[i, 0, i], [i + 1, 0, i]]);
    let way: Vec<[u16; 3]> = steps.chain((7..12).map(|z| [7, 0, z])).collect();
    let room = (0..8).flat_map(|x| (0..14).map(move |z| [x, 0, z]));
    let mut job = default_job([8, 1, 14], &[block_power([7, 0, 12], facing::NORTH)]);
    job.blocks = room
        .filter(|at| !way.contains(at))
        .map(|at| block(0, at, kind::SOLID))
        .collect();
    let branch: Vec<u16> = way.iter().map(|[x, _, z]| *x * 14 + *z).collect();
    let first_straight = branch[14];
    (
        "where no cell fits for a repeater, the walk goes on to the next cell",
        sheet(&job),
        tree(&[&branch], 19, &[first_straight]),
    )
}

/// A corridor along x with a side arm at 12: a repeater at 13 is due for the far sink only, unless the near one was planned
/// first and has its repeater at 11.
fn fork() -> [(&'static str, Sheet, TreeAnswer); 2] {
    let (far, near) = (plain_sink(18), wire([12, 0, 1], facing::NONE));
    let walls = (0..19).filter(|x| *x != 12);
    let walls: Vec<_> = walls.map(|x| block(0, [x, 0, 1], kind::SOLID)).collect();
    let job = |sinks: [Port; 2]| sheet(&blocked_by([19, 1, 2], &sinks, &walls));
    let cell = |x: u16| 2 * x;
    let to_far: Vec<_> = (12..=18).map(cell).collect();
    let to_near: Vec<_> = (0..=12).map(cell).chain([25]).collect();
    [
        (
            "runs are planned in sheet order: near sink first",
            job([near, far]),
            tree(&[&to_near, &to_far], 20, &[cell(11)]),
        ),
        (
            "runs are planned in sheet order: far sink first",
            job([far, near]),
            tree(&[&to_far, &to_near], 20, &[cell(11), cell(13)]),
        ),
    ]
}

/// Sheets that number 1 refuses, made from the sheet of one sink.
fn number_one() -> Vec<(&'static str, Sheet, TreeAnswer)> {
    let good = default_job([10, 1, 1], &[plain_sink(9)]);
    let changed = |name, change: fn(&mut Vec<u8>)| {
        let bytes = but(good.bytes(), change);
        (name, Sheet::of_route(bytes), refused(1, 0))
    };
    let sinks = |count| default_job([10, 1, 1], &vec![plain_sink(9); count]);
    vec![
        changed("no bytes", Vec::clear),
        changed("the head cut short", |bytes| bytes.truncate(4)),
        changed("version 2", |bytes| bytes[0] = 2),
        changed("a length too small", |bytes| bytes[4] -= 1),
        changed("a byte left over", |bytes| bytes.push(0)),
        changed("a byte left over, with its length", |bytes| {
            bytes.push(0);
            bytes[4] += 1;
        }),
        changed("a count past the end", |bytes| bytes[25] = 1),
        ("17 sinks", sheet(&sinks(17)), refused(1, 0)),
    ]
}

fn record_refusals() -> Vec<(&'static str, Sheet, TreeAnswer)> {
    let good = blocked_by(
        [3, 2, 1],
        &[plain_sink(2)],
        &[block(0, [1, 0, 0], kind::SOLID)],
    );
    let changed = |name, number, change: fn(&mut Job)| {
        (name, sheet(&but(good.clone(), change)), refused(number, 0))
    };
    vec![
        changed("sides", 2, |job| job.sides = [64, 5, 64]),
        changed("a cost", 3, |job| job.config.support = 100_001),
        changed("a block outside", 4, |job| job.blocks[0].at[1] = 2),
        changed("a conductor outside", 4, |job| {
            job.conductors.push([0, 0, 1])
        }),
        changed("a clearance outside", 4, |job| {
            job.clearances.push([3, 0, 0])
        }),
        changed("a terminal outside", 4, |job| job.terminals.push([0, 2, 0])),
        changed("a reserved cell outside", 4, |job| {
            job.reserved.push([255; 3])
        }),
        changed("the source outside", 4, |job| job.source.at[0] = 3),
        changed("a sink outside", 4, |job| job.sinks[0].port.at[0] = 3),
        changed("Air in a block record", 5, |job| job.blocks[0].kind = 0),
        changed("kind 13", 5, |job| job.blocks[0].kind = 13),
        changed("a block's facing 7", 5, |job| job.blocks[0].facing = 7),
        changed("port kind 2", 5, |job| job.source.kind = 2),
        changed("a sink's facing 7", 5, |job| job.sinks[0].port.facing = 7),
        changed("4 before 5 in one record", 4, |job| {
            job.blocks[0].kind = 13;
            job.blocks[0].at[0] = 3;
        }),
        changed("an earlier record's 5 before a later one's 4", 5, |job| {
            job.blocks[0].kind = 13;
            job.sinks[0].port.at[0] = 3;
        }),
    ]
}

/// A sheet with other buffers than those of program `route`.
fn lent(job: &Job, change: impl FnOnce(&mut Sheet)) -> Sheet {
    but(sheet(job), change)
}

/// A job that is refused for such buffers.
fn refused_for(
    name: &'static str,
    job: &Job,
    change: impl FnOnce(&mut Sheet),
    number: u8,
    detail: u32,
) -> (&'static str, Sheet, TreeAnswer) {
    (name, lent(job, change), refused(number, detail))
}

/// Buffers that are too short. The branch buffer may be.
fn number_six() -> [(&'static str, Sheet, TreeAnswer); 2] {
    let none = default_job([3, 1, 1], &[]);
    [
        refused_for("a buffer under V", &none, |sheet| sheet.lent = 2, 6, 0),
        refused_for(
            "no queue place, even with no sinks",
            &none,
            |sheet| sheet.queue = 0,
            6,
            0,
        ),
    ]
}

/// Two blocks in one cell.
fn number_seven() -> [(&'static str, Sheet, TreeAnswer); 3] {
    let at = |node, x| block(node, [x, 0, 0], kind::SOLID);
    let overlaps = |blocks: &[Block]| sheet(&blocked_by([4, 1, 1], &[], blocks));
    [
        (
            "two nodes in one cell",
            overlaps(&[at(0, 1), at(1, 1)]),
            refused(7, 1),
        ),
        (
            "one node twice in one cell",
            overlaps(&[at(5, 2), at(5, 2)]),
            refused(7, 2),
        ),
        (
            "the repeat of least node, then least cell",
            overlaps(&[at(9, 0), at(2, 3), at(2, 2), at(1, 3), at(1, 2), at(3, 0)]),
            refused(7, 2),
        ),
    ]
}

/// Ports without horizontal facing, and those that look out of the room.
fn numbers_eight_and_nine() -> [(&'static str, Sheet, TreeAnswer); 5] {
    let sink = |facing| {
        let sinks = [plain_sink(1), block_power([1, 0, 0], facing)];
        sheet(&default_job([3, 1, 1], &sinks))
    };
    let source = |facing| {
        sheet(&but(default_job([3, 1, 1], &[]), |job| {
            job.source = block_power([0; 3], facing)
        }))
    };
    [
        (
            "BlockPower source without facing",
            source(facing::NONE),
            refused(8, 0),
        ),
        ("BlockPower sink facing Up", sink(5), refused(8, 2)),
        (
            "the source's terminal outside",
            source(facing::WEST),
            refused(9, 0),
        ),
        (
            "a sink's terminal outside",
            sink(facing::NORTH),
            refused(9, 2),
        ),
        (
            "a sink's approach outside",
            sink(facing::EAST),
            refused(9, 2),
        ),
    ]
}

/// A queue that is full, a sink without a goal, a branch buffer that is too short; and what just suffices.
fn numbers_thirteen_to_fifteen() -> [(&'static str, Sheet, TreeAnswer); 7] {
    let line = default_job([3, 1, 1], &[plain_sink(2)]);
    let twice = default_job([3, 1, 1], &[wire([1, 0, 0], facing::EAST)]);
    let square = default_job([3, 1, 3], &[wire([1, 0, 1], facing::NONE)]);
    let wall = block(0, [2, 0, 0], kind::SOLID);
    let walled = blocked_by([4, 1, 1], &[plain_sink(1), plain_sink(3)], &[wall]);
    let short = |name, job, branch| refused_for(name, job, |sheet| sheet.branch = branch, 15, 1);
    [
        (
            "in a corridor one queue place suffices",
            lent(&twice, |sheet| sheet.queue = 1),
            tree(&[&[0, 1, 2, 1]], 3, &[]),
        ),
        ("no goal left for a sink", sheet(&walled), refused(14, 3)),
        (
            "a branch buffer exactly full",
            lent(&line, |sheet| sheet.branch = 3),
            tree(&[&[0, 1, 2]], 3, &[]),
        ),
        short("a branch buffer one short", &line, 2),
        short("the terminal counts", &twice, 3),
        short("15 before a later sink's 14", &walled, 1),
        refused_for("13 in a tree", &square, |sheet| sheet.queue = 4, 13, 2),
    ]
}

/// All faults at once, then mended one by one in the order in which they are judged.
fn tree_order() -> Vec<(&'static str, Sheet, TreeAnswer)> {
    let solid = block(3, [1, 0, 0], kind::SOLID);
    let mut job = blocked_by([5, 1, 1], &[], &[solid, solid]);
    job.sides = [0, 1, 1];
    job.config.node_limit = 200_001;
    job.reserved = vec![[5, 0, 0]];
    job.source = block_power([0, 0, 0], facing::NONE);
    job.sinks = vec![wire([4, 0, 0], facing::EAST).into(); 17];
    let mut queue = 0;
    let mends: [(u8, u32, Mend<Job>); 9] = [
        (1, 0, |job| job.sinks.truncate(1)),
        (2, 0, |job| job.sides = [5, 1, 1]),
        (3, 0, |job| job.config.node_limit = 200_000),
        (4, 0, |job| job.reserved.clear()),
        (6, 0, |_| {}),
        (7, 1, |job| job.blocks.truncate(1)),
        (8, 0, |job| job.source = wire([0, 0, 0], facing::NONE)),
        (9, 1, |job| job.sinks[0].port.facing = facing::NONE),
        (14, 4, |_| {}),
    ];
    let mut list = Vec::new();
    for (number, detail, mend) in mends {
        let case = lent(&job, |sheet| sheet.queue = queue);
        let answer = refused(number, detail);
        list.push(("a tree judges 1, 2, 3, 4, 6, 7, 8, 9, 14", case, answer));
        queue = if number == 6 { 60 } else { queue };
        mend(&mut job);
    }
    list
}

/// A job in the largest room, with buffers that just hold it.
fn large(job: &Job) -> Sheet {
    lent(job, |sheet| sheet.lent = Ranges::OLD.cells as u32)
}

/// Rooms at their limits: what is in range, and what is refused one further on.
fn room_limits() -> Vec<(&'static str, Sheet, TreeAnswer)> {
    let full = default_job([64, 4, 64], &[]);
    let over = but(full.clone(), |job| job.sides = [23, 23, 31]);
    let corner = block(0, [63, 3, 63], kind::SOLID);
    let twice = but(full.clone(), |job| job.blocks = vec![corner; 2]);
    let alone = || tree(&[], 1, &[]);
    let mut list = vec![
        ("16,384 cells", large(&full), alone()),
        ("16,399 cells", large(&over), refused(2, 0)),
        (
            "the last of 16,384 cells twice",
            large(&twice),
            refused(7, 16_383),
        ),
        refused_for(
            "buffers one short",
            &full,
            |sheet| sheet.lent = 16_383,
            6,
            0,
        ),
    ];
    for axis in 0..3 {
        let side = |side| sheet(&but(default_job([1; 3], &[]), |job| job.sides[axis] = side));
        list.push(("a side of 64", side(64), alone()));
        list.push(("a side of 65", side(65), refused(2, 0)));
        list.push(("a side of 0", side(0), refused(2, 0)));
    }
    list
}

/// Sixteen sinks, and the last of them at fault. Seventeen are among the sheets that number 1 refuses.
fn sink_limits() -> [(&'static str, Sheet, TreeAnswer); 3] {
    let full = default_job([2, 1, 1], &[plain_sink(1); MOST_SINKS]);
    let last = |port| {
        sheet(&but(full.clone(), |job| {
            job.sinks[MOST_SINKS - 1].port = port
        }))
    };
    [
        (
            "16 sinks",
            sheet(&full),
            tree(&[[0, 1].as_slice(); MOST_SINKS], 2, &[]),
        ),
        (
            "the last sink without facing",
            last(block_power([1, 0, 0], facing::NONE)),
            refused(8, 16),
        ),
        (
            "the last sink's approach outside",
            last(wire([1, 0, 0], facing::EAST)),
            refused(9, 16),
        ),
    ]
}

/// The node limit and each cost at its limit, and one over.
fn config_limits() -> Vec<(&'static str, Sheet, TreeAnswer)> {
    let job = default_job([2, 1, 1], &[plain_sink(1)]);
    let most = Ranges::OLD;
    let numbers: [(u32, fn(&mut Config, u32)); 4] = [
        (most.nodes, |config, number| config.node_limit = number),
        (most.cost, |config, number| config.horizontal = number),
        (most.cost, |config, number| config.stair = number),
        (most.cost, |config, number| config.support = number),
    ];
    let mut list = Vec::new();
    for (most, set) in numbers {
        let with = |number| sheet(&but(job.clone(), |job| set(&mut job.config, number)));
        list.push((
            "a number at its limit",
            with(most),
            tree(&[&[0, 1]], 2, &[]),
        ));
        list.push(("a number over its limit", with(most + 1), refused(3, 0)));
    }
    list
}

/// Each count so high that its last record runs past the end: of empty lists, and of lists that hold a record.
fn counts_past_the_end() -> Vec<(&'static str, Sheet, TreeAnswer)> {
    let empty = default_job([3, 1, 1], &[]);
    let solid = block(0, [1, 0, 0], kind::SOLID);
    let held = but(blocked_by([3, 1, 1], &[plain_sink(2)], &[solid]), |job| {
        job.conductors.push([0, 0, 0]);
        job.clearances.push([0, 0, 0]);
        job.terminals.push([0, 0, 0]);
        job.reserved.push([0, 0, 0]);
    });
    let record_sizes = [7, 3, 3, 3, 3, 5];
    let mut list = Vec::new();
    for job in [empty, held] {
        for (place, size) in count_places(&job).into_iter().zip(record_sizes) {
            let bytes = but(job.bytes(), |bytes| {
                let whole = (bytes.len() - place - 1) / size;
                bytes[place] = whole as u8 + 1;
            });
            let name = "a count that runs one record past the end";
            list.push((name, Sheet::of_route(bytes), refused(1, 0)));
        }
    }
    list
}
