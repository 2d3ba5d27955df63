//! The examples that are asked in both modes.

use super::sheets;
use super::trees::{refused, sheet, tree};
use crate::room::{facing, kind};
use crate::samples::{block, default_job, wire};
use crate::sheet::{Job, Sheet, TreeAnswer};
use crate::strict::StrictSheet;

/// A name, a sheet, and its answers in the published mode and in strict mode.
pub type Both = (&'static str, Sheet, TreeAnswer, TreeAnswer);

pub fn modes() -> Vec<Both> {
    let mut list = vec![routed_strictly_alone()];
    list.extend(over_another_net());
    list.extend(what_bears());
    list.push(own_start_bears());
    list
}

/// The sheets of the examples of single rules, and of both modes, without their answers.
pub fn strict_cases() -> Vec<StrictSheet> {
    let rules = sheets().into_iter().map(|(_, case, _)| case);
    let modes = modes().into_iter().map(|(_, case, ..)| case);
    rules.chain(modes).map(StrictSheet).collect()
}

/// Along z on the upper level of a room one cell wide and two high, from its first cell to its last.
fn upper(deep: u16) -> Job {
    let mut job = default_job([1, 2, deep], &[wire([0, 1, deep - 1], facing::NONE)]);
    job.source = wire([0, 1, 0], facing::NONE);
    job
}

/// In the published mode a blocked conflict bears the wire for free, until each way is blocked.
fn routed_strictly_alone() -> Both {
    let job = default_job([2, 3, 2], &[wire([1, 2, 0], facing::NONE)]);
    let strict = tree(&[&[0, 1, 9, 10]], 4, &[]);
    (
        "routed in strict mode alone",
        sheet(&job),
        refused(14, 10),
        strict,
    )
}

fn over_another_net() -> [Both; 4] {
    let over = |deep: u16, cell: u16| {
        let mut job = upper(deep);
        job.conductors.push([0, 0, cell]);
        job
    };
    let straight = tree(&[&[3, 4, 5]], 3, &[]);
    let mut kept_out = upper(5);
    kept_out.reserved.push([0, 0, 2]);
    let mut way_round = over(3, 1);
    way_round.sides[0] = 2;
    [
        (
            "wire rests on another net's",
            sheet(&over(3, 1)),
            straight.clone(),
            refused(14, 5),
        ),
        (
            "the net's own ends are not mended",
            sheet(&over(2, 1)),
            tree(&[&[2, 3]], 2, &[]),
            tree(&[&[2, 3]], 2, &[]),
        ),
        (
            "wire rests on a reserved cell",
            sheet(&kept_out),
            tree(&[&[5, 6, 7, 8, 9]], 5, &[]),
            refused(14, 9),
        ),
        (
            "beside another net nothing is free either",
            sheet(&way_round),
            straight,
            refused(14, 5),
        ),
    ]
}

/// The second sink stands in the clearance of the stair down to the first, so its search starts in a blocked cell. That bears, as Air
/// does: the cell above it is pushed, and the queue of five places is full.
fn own_start_bears() -> Both {
    let sinks = [[0, 0, 0], [0, 1, 0]].map(|at| wire(at, facing::NONE));
    let mut job = default_job([2, 3, 2], &sinks);
    job.source = wire([1, 0, 1], facing::NONE);
    job.config.stair = 1;
    job.config.support = 10;
    for at in [[0, 0, 1], [1, 0, 0]] {
        job.blocks.push(block(0, at, kind::SOLID));
    }
    job.reserved.push([1, 1, 1]);
    let sheet = Sheet {
        queue: 5,
        ..sheet(&job)
    };
    (
        "a search's own start bears, blocked or not",
        sheet,
        refused(13, 2),
        refused(13, 2),
    )
}

/// What isn't Air keeps its kind, blocked or not.
fn what_bears() -> [Both; 2] {
    let over = |kind: u8| {
        let mut job = upper(3);
        job.blocks.push(block(0, [0, 0, 1], kind));
        job.reserved.push([0, 0, 1]);
        sheet(&job)
    };
    let straight = tree(&[&[3, 4, 5]], 3, &[]);
    [
        (
            "a blocked Transparent bears in both modes",
            over(kind::TRANSPARENT),
            straight.clone(),
            straight,
        ),
        (
            "a blocked Lever bears in neither",
            over(kind::LEVER),
            refused(14, 5),
            refused(14, 5),
        ),
    ]
}
