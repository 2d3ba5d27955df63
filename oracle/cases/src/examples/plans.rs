//! Repeaters in one call: the smallest inputs of each rule, and each refusal in its order.

use crate::Refusal;
use crate::plan::{Plan, PlanAnswer};
use crate::room::{Room, facing};
use crate::samples::{block_power, default_job, wire};
use crate::sheet::{Port, Sink};

type Example = (&'static str, Plan, PlanAnswer);

/// A net from cell (0, 0, 0), at these limits, in a room of at most 1,000 cells.
fn plan(sides: [u16; 3], limits: [u8; 2], sinks: &[Port], branches: &[&[usize]]) -> Plan {
    let room = Room::new(sides, 1_000).expect("a small room");
    let mut job = default_job(sides, &[]);
    let [run, tail] = limits;
    job.run = run;
    job.sinks = sinks
        .iter()
        .map(|port| Sink { port: *port, tail })
        .collect();
    let branches: Vec<_> = branches.iter().map(|branch| branch.to_vec()).collect();
    Plan::of(&job, &room, &branches)
}

/// A row of ten cells with a sink at its end.
fn row(limits: [u8; 2]) -> Plan {
    let cells: Vec<usize> = (0..10).collect();
    let sink = wire([9, 0, 0], facing::NONE);
    plan([10, 1, 1], limits, &[sink], &[&cells])
}

fn marked(cells: &[u16]) -> PlanAnswer {
    PlanAnswer::Repeaters(cells.to_vec())
}

pub fn plans() -> Vec<Example> {
    let mut list = limits();
    list.extend(shapes());
    list.extend(order());
    list
}

/// The runs alone, the tail alone, and both: of a row of ten cells.
fn limits() -> Vec<Example> {
    vec![
        ("neither run nor tail", row([15, 15]), marked(&[])),
        ("the runs", row([4, 15]), marked(&[5])),
        ("the tail", row([15, 4]), marked(&[5])),
        ("run and tail", row([4, 3]), marked(&[5, 7])),
        ("a run of one", row([1, 15]), marked(&[2, 4, 6, 8])),
    ]
}

/// What the branches may be like.
fn shapes() -> Vec<Example> {
    let ends = |x| wire([x, 0, 0], facing::NONE);
    let mut list = vec![
        (
            "no branch",
            plan([10, 1, 1], [1, 1], &[ends(9)], &[]),
            marked(&[]),
        ),
        (
            "an empty branch and one of a single cell",
            plan([10, 1, 1], [1, 1], &[ends(9)], &[&[], &[9]]),
            marked(&[]),
        ),
        (
            "a sink that no chain joins",
            plan(
                [10, 1, 1],
                [2, 8],
                &[ends(9)],
                &[&[0, 1, 2, 3, 4], &[6, 7, 8, 9]],
            ),
            marked(&[]),
        ),
        (
            "pieces, the first of them backwards",
            plan(
                [10, 1, 1],
                [4, 15],
                &[ends(9)],
                &[&[5, 4, 3, 2, 1, 0], &[5, 6, 7, 8, 9]],
            ),
            marked(&[5]),
        ),
        (
            "a fork has three neighbours",
            plan(
                [6, 1, 3],
                [2, 15],
                &[ends(5), wire([3, 0, 1], facing::NONE)],
                &[&[0, 3, 6, 9, 12, 15], &[9, 10]],
            ),
            marked(&[6, 12]),
        ),
    ];
    let round = [0, 3, 6, 7, 8, 5, 2, 1, 0];
    list.push((
        "a ring",
        plan(
            [3, 1, 3],
            [1, 15],
            &[wire([2, 0, 2], facing::NONE)],
            &[&round],
        ),
        marked(&[1, 5]),
    ));
    let mut faced = row([4, 15]);
    faced.sinks[4] = facing::WEST.into();
    list.push(("an approach bears none", faced, marked(&[5])));
    let power = block_power([9, 0, 0], facing::WEST);
    list.push((
        "BlockPower has no tail",
        plan(
            [10, 1, 1],
            [15, 1],
            &[power],
            &[&[0, 1, 2, 3, 4, 5, 6, 7, 8]],
        ),
        marked(&[]),
    ));
    list
}

/// Of two faults the one that is judged first tells its number.
fn order() -> Vec<Example> {
    let faults: [(u8, u32, fn(&mut Plan)); 13] = [
        (2, 0, |case| case.sides[1] = 0),
        (3, 0, |case| case.run = 16),
        (4, 0, |case| case.source[0] = 10),
        (5, 0, |case| case.source[4] = 7),
        (4, 0, |case| case.sinks[6] = 10),
        (5, 0, |case| case.sinks[9] = 256),
        (3, 0, |case| case.sinks[11] = 0),
        (4, 0, |case| case.branches[4] = 6),
        (6, 0, |case| case.lengths[0] = u32::MAX),
        (8, 0, |case| case.source[3..].copy_from_slice(&[1, 0])),
        (8, 2, |case| case.sinks[9..11].copy_from_slice(&[1, 5])),
        (9, 0, |case| case.source[3..].copy_from_slice(&[1, 4])),
        (9, 1, |case| case.sinks[4] = facing::EAST.into()),
    ];
    let mut list = Vec::new();
    for (place, (number, detail, fault)) in faults.iter().enumerate() {
        let mut case = row([4, 4]);
        let sink = case.sinks.clone();
        case.sinks.extend(sink);
        let mut behind: Vec<_> = faults[place + 1..]
            .iter()
            .map(|(_, _, fault)| fault)
            .collect();
        behind.reverse();
        // the first fault is made last, for some change the same number
        behind
            .into_iter()
            .chain([fault])
            .for_each(|make| make(&mut case));
        let refusal = Refusal::new(*number, *detail);
        list.push(("two faults", case, PlanAnswer::Refused(refusal)));
    }
    list.extend(buffers());
    list
}

/// What is too short, too many, or no whole record; and what such a value does hold is judged before.
fn buffers() -> Vec<Example> {
    let faults: [(u8, fn(&mut Plan)); 10] = [
        (6, |case| case.marks = 9),
        (6, |case| case.work[0] = 9),
        (6, |case| case.work[3] = 9),
        (6, |case| case.source.truncate(4)),
        (6, |case| case.sinks.push(0)),
        (6, |case| case.sinks.extend([0, 0, 0, 0, 0, 8].repeat(16))),
        (6, |case| case.lengths.resize(17, 0)),
        (6, |case| case.lengths[0] = 11),
        (5, |case| {
            case.sinks.extend([0, 0, 0, 2, 0, 8].repeat(16));
            case.lengths.resize(17, 0);
        }),
        (4, |case| {
            case.branches[9] = 3;
            case.lengths[0] = u32::MAX;
        }),
    ];
    let made = faults.into_iter().map(|(number, fault)| {
        let mut case = row([4, 4]);
        fault(&mut case);
        let refusal = Refusal::bare(number);
        ("lent, or told", case, PlanAnswer::Refused(refusal))
    });
    made.collect()
}

/// The examples without their answers.
pub fn plan_cases() -> Vec<Plan> {
    plans().into_iter().map(|(_, case, _)| case).collect()
}
