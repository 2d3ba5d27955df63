//! The open points: inputs on which the other reading answers differently.

use super::space::{CLEARANCES, CONDUCTORS, FACINGS, Jobs, RESERVED, TERMINALS};
use super::{Fewer, Input, Point, Sign, draw};
use crate::reading::Other;
use crate::room::{Config, facing, kind, port};
use crate::samples::{block, default_job, wire};
use crate::sheet::{Job, Port};

pub fn points() -> Vec<Point> {
    let mut points = source_approach();
    points.extend(blocked());
    points.extend(joined());
    points.extend(conflicts());
    points.extend(planned());
    points.extend(planned_along());
    points
}

fn point(name: &'static str, says: &'static str, other: Other, input: Job, fewer: Fewer) -> Point {
    Point {
        name,
        says,
        input: Input::Job(input),
        sign: Sign::Read(other),
        fewer,
    }
}

const PLAIN: &[(u8, u8)] = &[(port::WIRE, facing::NONE)];
const USUAL: [u32; 3] = [10, 25, 15];

/// Up to two sinks that face anywhere, at the usual costs and at none.
const TWO_SINKS: Jobs = Jobs {
    blocks: &[],
    most_blocks: 0,
    lists: &[],
    sources: PLAIN,
    sinks: FACINGS,
    most_sinks: 2,
    costs: &[USUAL, [0, 0, 0]],
};
/// Up to two sinks, one block that bears or doesn't, and one cell of any of the four lists.
const LISTS: Jobs = Jobs {
    blocks: &[(kind::SOLID, facing::NONE), (kind::LEVER, facing::NONE)],
    most_blocks: 1,
    lists: &[CONDUCTORS, CLEARANCES, TERMINALS, RESERVED],
    costs: &[USUAL],
    ..TWO_SINKS
};
/// Up to two sinks and a repeater.
const REPEATER: Jobs = Jobs {
    blocks: &[
        (kind::REPEATER, facing::NORTH),
        (kind::REPEATER, facing::EAST),
        (kind::REPEATER, facing::SOUTH),
        (kind::REPEATER, facing::WEST),
    ],
    most_blocks: 1,
    ..TWO_SINKS
};
/// Up to two sinks and a block that bears or doesn't, at costs that make steps or supports free.
const BLOCK: Jobs = Jobs {
    blocks: &[(kind::SOLID, facing::NONE), (kind::LEVER, facing::NONE)],
    most_blocks: 1,
    costs: &[USUAL, [0, 0, 0], [0, 0, 1], [10, 0, 15]],
    ..TWO_SINKS
};
/// Up to three sinks, at costs that make stairs or flat steps dear or free.
const THREE_SINKS: Jobs = Jobs {
    most_sinks: 3,
    costs: &[USUAL, [0, 0, 0], [0, 25, 15], [10, 0, 15], [10, 10, 0]],
    ..TWO_SINKS
};

fn plain(at: [u16; 3]) -> Port {
    wire(at, facing::NONE)
}

fn job(sides: [u16; 3], source: Port, sinks: &[Port], change: impl FnOnce(&mut Job)) -> Job {
    let mut job = default_job(sides, sinks);
    job.source = source;
    change(&mut job);
    job
}

fn costs(job: &mut Job, [horizontal, stair, support]: [u32; 3]) {
    job.config = Config {
        horizontal,
        stair,
        support,
        ..job.config
    };
}

/// A source has no approach.
fn source_approach() -> Vec<Point> {
    let east = wire([0; 3], facing::EAST);
    vec![
        point(
            "source-approach-outside",
            "a source has no approach for 9",
            Other::SourceApproachJudged,
            job([1, 1, 1], east, &[], |_| {}),
            Fewer::Reason("there is no smaller room"),
        ),
        point(
            "source-approach-blocked",
            "a source has no approach among the cells taken out",
            Other::SourceApproachTakenOut,
            job([3, 1, 1], east, &[plain([2, 0, 0])], |job| {
                job.reserved.push([1, 0, 0]);
            }),
            Fewer::Jobs(vec![Jobs {
                sources: FACINGS,
                ..LISTS
            }]),
        ),
        point(
            "source-approach-repeater",
            "a source has no approach where a repeater may not stand",
            Other::SourceApproachForbidden,
            job([10, 1, 1], east, &[plain([9, 0, 0])], |_| {}),
            Fewer::Reason("a repeater takes a path of 10 cells"),
        ),
    ]
}

/// What is blocked at the outset, in rooms of three columns with source and sink in the outer ones.
fn blocked() -> Vec<Point> {
    let [far, above] = [[2, 0, 0], [2, 1, 0]].map(plain);
    let line = |change: fn(&mut Job)| job([3, 1, 1], plain([0; 3]), &[far], change);
    let low = |change: fn(&mut Job)| job([3, 2, 1], plain([0; 3]), &[far], change);
    let high = |change: fn(&mut Job)| job([3, 2, 1], plain([0, 1, 0]), &[above], change);
    vec![
        point(
            "keepout-of-lists",
            "of other nets' cells only conductors have keepouts",
            Other::EveryListKeepsOut,
            line(|job| job.reserved.push([0, 0, 0])),
            Fewer::Jobs(vec![LISTS]),
        ),
        point(
            "keepout-upright",
            "a keepout is not right above or beneath its cell",
            Other::KeepoutAboveAndBeneath,
            low(|job| job.conductors.push([1, 1, 0])),
            Fewer::Jobs(vec![LISTS]),
        ),
        point(
            "blocked-kind",
            "a blocked cell that is not Air keeps its kind",
            Other::BlockedBears,
            high(lever_reserved),
            Fewer::Jobs(vec![LISTS]),
        ),
        point(
            "output-outside",
            "a repeater that faces out of the room has no output block",
            Other::OutsideIsPowered,
            low(repeater_facing_out),
            Fewer::Jobs(vec![REPEATER]),
        ),
    ]
}

fn lever_reserved(job: &mut Job) {
    job.reserved.push([1, 0, 0]);
    job.blocks.push(block(0, [1, 0, 0], kind::LEVER));
}

fn repeater_facing_out(job: &mut Job) {
    let mut repeater = block(0, [1, 1, 0], kind::REPEATER);
    repeater.facing = facing::SOUTH;
    job.blocks.push(repeater);
}

/// What a sink leaves behind for those after it.
fn joined() -> Vec<Point> {
    let [twice, beside] = [wire([0, 0, 0], facing::EAST), plain([1, 0, 0])];
    let [down, back] = [plain([0, 0, 1]), wire([0, 1, 1], facing::SOUTH)];
    let free = |job: &mut Job| costs(job, [0, 25, 15]);
    vec![
        point(
            "terminal-joinable",
            "a terminal that stands on its branch earlier is joinable",
            Other::TerminalNeverJoinable,
            job([2, 1, 2], plain([0, 0, 1]), &[twice, beside], free),
            Fewer::Jobs(vec![TWO_SINKS]),
        ),
        point(
            "ends-blocked-again",
            "an own clearance may block an own end again",
            Other::EndsStayOpen,
            job([1, 2, 3], plain([0, 1, 0]), &[down, back], free),
            Fewer::Jobs(vec![THREE_SINKS]),
        ),
    ]
}

/// Which cells are in conflict, and what becomes of them.
fn conflicts() -> Vec<Point> {
    let [over, up] = [wire([0, 1, 0], facing::EAST), plain([2, 1, 0])];
    let terminals = [[1, 0, 0], [1, 1, 0]].map(plain);
    vec![
        point(
            "pair-upper",
            "a vertical pair's conflict is its upper cell",
            Other::LowerOfPair,
            job([3, 2, 1], plain([0; 3]), &[over, up], |job| {
                costs(job, [10, 0, 15]);
            }),
            Fewer::Jobs(vec![THREE_SINKS]),
        ),
        point(
            "stairs-from-approach",
            "a path's stairs are looked through from the approach on",
            Other::StairsFromGoal,
            under_a_block(),
            Fewer::Jobs(vec![BLOCK]),
        ),
        point(
            "clearance-first",
            "at a stair the clearance's kind comes before a conductor above it",
            Other::AboveClearanceFirst,
            round_a_block(),
            Fewer::Jobs(vec![Jobs {
                costs: &[USUAL, [0, 0, 0]],
                ..BLOCK
            }]),
        ),
        point(
            "second-from-approach",
            "a stair's second cell counts from the approach",
            Other::SecondFromGoal,
            beside_a_block(),
            Fewer::Jobs(vec![BLOCK]),
        ),
        point(
            "conflict-joinable",
            "conflicts are looked for among the joinable cells, not the occupied ones",
            Other::ConflictWithOccupied,
            job([2, 2, 1], plain([0; 3]), &terminals, |_| {}),
            Fewer::Jobs(vec![THREE_SINKS]),
        ),
        point(
            "conflict-for-goal",
            "a conflict is blocked for that goal only",
            Other::ConflictStays,
            over_a_block(),
            Fewer::Jobs(vec![BLOCK, THREE_SINKS]),
        ),
        point(
            "sixty-three-conflicts",
            "63 conflicts and then a route pass",
            Other::SixtyThreeSearches,
            many_conflicts(),
            Fewer::Open("63 conflicts, start and goal are 65 cells; no walk goes so far"),
        ),
    ]
}

/// The first way tried leads down beneath the block and up again, so both its stairs have the block for their clearance.
fn under_a_block() -> Job {
    job([2, 2, 2], plain([0, 1, 1]), &[plain([1, 1, 0])], |job| {
        costs(job, [10, 0, 15]);
        job.blocks.push(block(0, [0, 1, 0], kind::SOLID));
    })
}

/// One branch leads over the block; the next is first tried beneath it.
fn round_a_block() -> Job {
    let sink = plain([0, 1, 0]);
    job([1, 3, 3], plain([0, 1, 2]), &[sink, sink], |job| {
        costs(job, [0, 0, 0]);
        job.blocks.push(block(0, [0, 1, 1], kind::SOLID));
    })
}

/// The block is above the start of the search.
fn beside_a_block() -> Job {
    job([3, 2, 1], plain([2, 1, 0]), &[plain([0; 3])], |job| {
        costs(job, [0, 0, 0]);
        job.blocks.push(block(0, [0, 1, 0], kind::SOLID));
    })
}

fn over_a_block() -> Job {
    let sinks = [plain([3, 1, 0]), wire([1, 1, 0], facing::EAST)];
    job([4, 2, 1], plain([0; 3]), &sinks, |job| {
        costs(job, [0, 0, 1]);
        job.blocks.push(block(0, [1, 0, 0], kind::SOLID));
    })
}

/// Many ways, of which all but the dearest have a conflict: each way tried blocks a cell more.
fn many_conflicts() -> Job {
    job([6, 4, 8], plain([3, 3, 3]), &[plain([0, 0, 2])], |job| {
        costs(job, [50, 20, 1]);
        draw(job, include_str!("conflicts.txt"));
    })
}

/// A line of cells with the source at its beginning.
fn line(cells: u16, sinks: &[u16]) -> Job {
    let sinks: Vec<_> = sinks.iter().map(|x| plain([*x, 0, 0])).collect();
    default_job([cells, 1, 1], &sinks)
}

/// In which order repeaters are planned, and what a tail's repeater keeps.
fn planned() -> Vec<Point> {
    vec![
        point(
            "tails-in-sheet-order",
            "tails are planned in sheet order",
            Other::TailsAsSearched,
            line(11, &[10, 9]),
            Fewer::Reason(
                "in 10 cells a path of 9 steps takes them all, so only one cell has a tail",
            ),
        ),
        point(
            "tails-after-all-runs",
            "tails come after the runs of all sinks",
            Other::TailAfterRun,
            line(14, &[9, 13]),
            Fewer::Reason("a run's repeater takes a path of 14 cells"),
        ),
        point(
            "tails-off-own-ends",
            "a tail's repeater stands on no terminal or approach of this net",
            Other::TailOnOwnEnds,
            line(10, &[1, 9]),
            Fewer::Reason("a repeater takes a path of 10 cells"),
        ),
        point(
            "runs-in-sheet-order",
            "runs are planned in sheet order",
            Other::RunsAsSearched,
            fork_after_a_loop(),
            Fewer::Reason(
                "two paths of 14 cells or more that part, one of them two steps before its end, take 16",
            ),
        ),
    ]
}

/// Between which cells repeaters are planned.
fn planned_along() -> Vec<Point> {
    vec![
        point(
            "neighbours-different",
            "tree neighbours are different cells",
            Other::NeighboursByStep,
            line(10, &[2, 9]),
            Fewer::Reason("a repeater takes a path of 10 cells"),
        ),
        point(
            "neighbours-of-all-branches",
            "tree neighbours count over all branches",
            Other::NeighboursOfOneBranch,
            ring_with_arm(),
            Fewer::Reason(
                "a path of 10 cells and a neighbour off it take 11, and a room of 11 cells is one line",
            ),
        ),
        point(
            "path-breadth-first",
            "the path from the source is breadth first over all branches",
            Other::PathAlongBranches,
            to_and_fro(),
            Fewer::Jobs(vec![Jobs {
                costs: &[USUAL, [0, 0, 0]],
                ..THREE_SINKS
            }]),
        ),
    ]
}

/// The last branch begins where the others end, and runs back over the source.
fn to_and_fro() -> Job {
    let [near, far] = [[1, 0, 0], [6, 0, 0]].map(plain);
    let sinks = [near, wire([1, 0, 0], facing::WEST), far];
    job([7, 1, 1], plain([3, 0, 0]), &sinks, |job| {
        costs(job, [0, 25, 15]);
    })
}

/// Two long paths that part two steps before their ends, one with and one without a straight cell behind the fork. All goals
/// cost nothing, so each sink is led to the joinable cell of least number.
fn fork_after_a_loop() -> Job {
    let sinks = [
        wire([0, 0, 2], facing::SOUTH),
        wire([2, 0, 1], facing::SOUTH),
        wire([0, 0, 1], facing::NORTH),
        plain([3, 0, 3]),
    ];
    job([4, 1, 4], plain([3, 0, 0]), &sinks, |job| {
        costs(job, [0, 25, 15]);
        job.blocks.push(block(0, [0, 0, 2], kind::SOLID));
    })
}

/// A way round a wall, and an arm at its first cell.
fn ring_with_arm() -> Job {
    let sinks = [
        wire([1, 0, 2], facing::EAST),
        wire([1, 0, 0], facing::SOUTH),
    ];
    job([4, 1, 3], plain([0, 0, 2]), &sinks, |job| {
        for at in [[1, 0, 2], [2, 0, 1]] {
            job.blocks.push(block(0, at, kind::SOLID));
        }
    })
}
