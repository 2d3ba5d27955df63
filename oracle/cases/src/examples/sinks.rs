//! Sheets of which it is asked why a sink wasn't reached: each verdict, each new reason, and where nothing is told.

use super::trees::{refused, sheet, tree};
use super::{but, modes};
use crate::room::{facing, kind};
use crate::samples::{block, default_job, wire};
use crate::sheet::{Job, TreeAnswer};
use crate::tree::Mode;
use crate::tree_why::{SinkReason, TreeWhy, TreeWhyAnswer, cause, verdict};
use crate::why::{MOVES, Told};

pub type Named = (&'static str, TreeWhy, TreeWhyAnswer);

/// A row of so many cells along z, from its first cell to its last.
fn row(deep: u16) -> Job {
    default_job([1, 1, deep], &[wire([0, 0, deep - 1], facing::NONE)])
}

/// The twelve moves of a cell; those that are not named lead outside.
fn moves(named: &[(usize, u8)]) -> [u8; MOVES] {
    let mut moves = [1; MOVES];
    named.iter().for_each(|(step, told)| moves[*step] = *told);
    moves
}

/// Moves to z + 1 and to z - 1 on the level, and to z - 1 one down; to x - 1 on the level and one down.
const AHEAD: usize = 7;
const BACK: usize = 10;
const BACK_DOWN: usize = 9;
const ASIDE: usize = 4;
const ASIDE_DOWN: usize = 3;

fn asked(job: &Job, mode: Mode) -> TreeWhy {
    TreeWhy::of(sheet(job), mode)
}

fn untold(tree: TreeAnswer) -> TreeWhyAnswer {
    TreeWhyAnswer { tree, reason: None }
}

fn said(tree: TreeAnswer, place: u8, verdict: u8) -> TreeWhyAnswer {
    shut_in(tree, place, &[], &[], verdict)
}

fn shut_in(
    tree: TreeAnswer,
    place: u8,
    reached: &[(u16, &[(usize, u8)])],
    causes: &[(u16, u8)],
    verdict: u8,
) -> TreeWhyAnswer {
    let told = |(cell, named): &(u16, &[(usize, u8)])| Told {
        cell: *cell,
        moves: moves(named),
    };
    let reason = Some(SinkReason {
        place,
        verdict,
        reached: reached.iter().map(told).collect(),
        causes: causes.to_vec(),
    });
    TreeWhyAnswer { tree, reason }
}

pub fn tree_whys() -> Vec<Named> {
    let mut list = shut_in_cases();
    list.extend(other_verdicts());
    list.extend(nothing_told());
    list.extend(order());
    list
}

/// All cases without their answers: those above, then the sheets of both modes, each asked in both, with outputs that just suffice.
pub fn tree_why_cases() -> Vec<TreeWhy> {
    let named = tree_whys().into_iter().map(|(_, case, _)| case);
    let both = modes().into_iter().flat_map(|(_, case, ..)| {
        [Mode::Published, Mode::Strict].map(|mode| TreeWhy::of(case.clone(), mode))
    });
    named.chain(both).collect()
}

/// Solid in the middle of a row of three.
fn walled() -> Job {
    but(row(3), |job| {
        job.blocks.push(block(0, [0, 0, 1], kind::SOLID))
    })
}

/// The nearer sink's branch is a stair, above whose lower end the other sink would pass.
fn under_own_stair() -> Job {
    let sinks = [[1, 2, 0], [1, 1, 0]].map(|at| wire(at, facing::NONE));
    but(default_job([2, 3, 1], &sinks), |job| {
        job.blocks.push(block(0, [0, 2, 0], kind::SOLID))
    })
}

fn shut_in_cases() -> Vec<Named> {
    let reserved = but(row(5), |job| job.reserved.push([0, 0, 2]));
    let second = but(row(6), |job| {
        job.source.at = [0, 0, 2];
        job.sinks.push(wire([0, 0, 1], facing::NONE).into());
        job.blocks.push(block(0, [0, 0, 4], kind::SOLID));
    });
    let mut over = default_job([1, 2, 3], &[wire([0, 1, 2], facing::NONE)]);
    over.source = wire([0, 1, 0], facing::NONE);
    over.conductors.push([0, 0, 1]);
    let lever = but(row(5), |job| {
        job.blocks.push(block(0, [0, 0, 1], kind::LEVER))
    });
    let in_both = |name, job: Job, answer: TreeWhyAnswer| {
        [Mode::Published, Mode::Strict].map(|mode| (name, asked(&job, mode), answer.clone()))
    };
    let mut list = Vec::new();
    list.extend(in_both(
        "a block in the way",
        walled(),
        shut_in(
            refused(14, 2),
            1,
            &[(2, &[(BACK, 2)])],
            &[],
            verdict::SHUT_IN,
        ),
    ));
    list.extend(in_both(
        "a reserved cell in the way",
        reserved,
        shut_in(
            refused(14, 4),
            1,
            &[(3, &[(AHEAD, 0), (BACK, 4)]), (4, &[(BACK, 0)])],
            &[(2, cause::RESERVED)],
            verdict::SHUT_IN,
        ),
    ));
    list.extend(in_both(
        "the sink that is farther off, first in the sheet",
        second,
        shut_in(
            refused(14, 5),
            1,
            &[(5, &[(BACK, 2)])],
            &[],
            verdict::SHUT_IN,
        ),
    ));
    list.extend(in_both(
        "a Lever keeps the cell beside it free",
        lever,
        shut_in(
            refused(14, 4),
            1,
            &[(3, &[(AHEAD, 0), (BACK, 4)]), (4, &[(BACK, 0)])],
            &[(2, cause::BLOCK)],
            verdict::SHUT_IN,
        ),
    ));
    list.extend(in_both(
        "the headroom of this net's own stair",
        under_own_stair(),
        shut_in(
            refused(14, 5),
            1,
            &[(5, &[(ASIDE_DOWN, 4), (ASIDE, 2)])],
            &[(1, cause::OWN)],
            verdict::SHUT_IN,
        ),
    ));
    list.push((
        "another net's wire beneath, in strict mode",
        asked(&over, Mode::Strict),
        shut_in(
            refused(14, 5),
            1,
            &[(5, &[(BACK_DOWN, 4), (BACK, 5)])],
            &[(1, cause::CONDUCTOR)],
            verdict::SHUT_IN,
        ),
    ));
    list
}

fn other_verdicts() -> Vec<Named> {
    let lever = but(row(3), |job| {
        job.blocks.push(block(0, [0, 0, 2], kind::LEVER))
    });
    let limited = but(row(3), |job| job.config.node_limit = 0);
    let cheap = but(row(3), |job| {
        job.config.node_limit = 0;
        job.config.horizontal = 9;
    });
    // The ways are 4 5 9 6 0 and its like; each conflict that is blocked cuts more of them off.
    let conflicts = default_job([2, 3, 2], &[wire([0, 2, 0], facing::NONE)]);
    let mut queue = default_job([3, 1, 3], &[wire([1, 0, 1], facing::NONE)]);
    queue.source = wire([0, 0, 0], facing::NONE);
    let queue = but(asked(&queue, Mode::Published), |case| case.sheet.queue = 4);
    let published = |name, job: &Job, answer| (name, asked(job, Mode::Published), answer);
    let mut list = at_the_limits(&conflicts);
    list.extend([
        published(
            "the approach is taken",
            &lever,
            said(refused(14, 2), 1, verdict::APPROACH_TAKEN),
        ),
        published(
            "conflicts alone",
            &conflicts,
            said(refused(14, 4), 1, verdict::CONFLICTS),
        ),
        published(
            "the node limit",
            &limited,
            said(refused(14, 2), 1, verdict::CUT_SHORT),
        ),
        published(
            "the node limit, at a step of 9",
            &cheap,
            said(refused(14, 2), 1, verdict::CUT_SHORT),
        ),
        (
            "the queue",
            queue,
            said(refused(13, 2), 1, verdict::CUT_SHORT),
        ),
    ]);
    list
}

/// A sink of which conflicts alone are told just at costs of 10 and 20 and at a node limit of 5(V - 1) + 1.
fn at_the_limits(conflicts: &Job) -> Vec<Named> {
    let rows: [(u32, u32, u32, u8); 5] = [
        (56, 10, 20, verdict::CONFLICTS),
        (55, 10, 20, verdict::CUT_SHORT),
        (56, 9, 20, verdict::CUT_SHORT),
        (56, 10, 19, verdict::CUT_SHORT),
        (200_000, 9, 19, verdict::CUT_SHORT),
    ];
    let case = |(limit, flat, stair, told)| {
        let job = but(conflicts.clone(), |job| {
            job.config.node_limit = limit;
            job.config.horizontal = flat;
            job.config.stair = stair;
        });
        (
            "at the limits of what is known",
            asked(&job, Mode::Published),
            said(refused(14, 4), 1, told),
        )
    };
    rows.map(case).into()
}

fn nothing_told() -> Vec<Named> {
    let done = tree(&[&[0, 1, 2]], 3, &[]);
    let full = but(asked(&row(3), Mode::Published), |case| {
        case.sheet.branch = 2
    });
    vec![
        (
            "a tree: nothing is told",
            asked(&row(3), Mode::Strict),
            untold(done),
        ),
        ("the branch buffer", full, untold(refused(15, 1))),
    ]
}

/// Any output one byte short is 6, which comes behind 1 to 5 and before 7, 8 and 9.
fn order() -> Vec<Named> {
    let short: [fn(&mut TreeWhy); 3] = [
        |case| case.reached -= 1,
        |case| case.walls -= 1,
        |case| case.causes -= 1,
    ];
    let faults: [(u8, fn(&mut Job)); 6] = [
        (6, |_| {}),
        (2, |job| job.sides[1] = 0),
        (3, |job| job.config.support = 100_001),
        (4, |job| job.sinks[0].port.at = [0, 0, 3]),
        (6, |job| job.blocks.push(block(0, [0, 0, 1], kind::SOLID))),
        (6, |job| job.sinks[0].port.kind = 1),
    ];
    let mut list = Vec::new();
    for shorten in short {
        for (number, fault) in faults {
            let mut case = asked(&walled(), Mode::Published);
            shorten(&mut case);
            case.sheet.bytes = but(walled(), fault).bytes();
            list.push(("an output one byte short", case, untold(refused(number, 0))));
        }
    }
    list
}
