//! One tree: the published `route_net_tree` against the plain router.

use std::collections::BTreeSet;

use cases::room::{MOST_CELLS, Room};
use cases::search::cells16;
use cases::sheet::{Job, Sheet, TreeAnswer};
use cases::strict::StrictSheet;
use cases::text::{sheet_lines, tree_answer_lines};
use cases::tree::{Limits, ROUTE_MOST_CELLS, plain_answer};
use published::multinet::{MultiNetError, RoutedNet};
use published::physical::PhysicalError;
use published::port_realization::{realize_sink_endpoint, terminal_for_endpoint};
use published::world::Pos;

use crate::published_side::{PublishedJob, cell_at, endpoint, guarded, planned_repeaters};
use crate::{Disagreement, Refusal, agreed};

/// The answer to a sheet as the library's tree gives it, or how the published Rust and the plain router differ on it.
pub fn check_sheet(case: &Sheet) -> Result<TreeAnswer, Disagreement> {
    check(case, MOST_CELLS)
}

/// The plain router's answer in strict mode, which the published Rust lacks. In the published mode the two agree on the same sheet.
pub fn check_strict(case: &StrictSheet) -> Result<TreeAnswer, Disagreement> {
    check_sheet(&case.0)?;
    Ok(case.plain_answer())
}

/// The answer of program `route`: its limits, and number 2 over 4,096 cells.
pub fn check_route(bytes: Vec<u8>) -> Result<TreeAnswer, Disagreement> {
    check(&Sheet::of_route(bytes), ROUTE_MOST_CELLS)
}

fn check(case: &Sheet, most_cells: usize) -> Result<TreeAnswer, Disagreement> {
    let (job, room) = match case.judge(most_cells) {
        Ok(judged) => judged,
        Err(refusal) => return Ok(TreeAnswer::Refused(refusal)),
    };
    let answer = plain_answer(&job, &room, case.limits());
    let expected = match &answer {
        // Refusals that the Rust lacks and that are due before it routes: nothing to compare.
        TreeAnswer::Refused(Refusal { number: 9, .. }) => return Ok(answer),
        TreeAnswer::Refused(Refusal { number: 7, .. }) if repeats_within_a_node(&job) => {
            return Ok(answer);
        }
        // The Rust's queue and branches have no end: compare with the plain router's unbounded.
        TreeAnswer::Refused(Refusal {
            number: 13 | 15, ..
        }) => plain_answer(&job, &room, Limits::NONE),
        other => other.clone(),
    };
    let found = published_answer(&job, &room);
    let lines = || sheet_lines(case);
    agreed(answer, &expected, found, lines, tree_answer_lines)
}

/// The Rust keeps the later of two records of one node in one cell; we refuse.
fn repeats_within_a_node(job: &Job) -> bool {
    let mut held = BTreeSet::new();
    job.blocks
        .iter()
        .any(|block| !held.insert((block.node, block.at)))
}

fn published_answer(job: &Job, room: &Room) -> Result<TreeAnswer, String> {
    let refused = |number, detail| Ok(TreeAnswer::Refused(Refusal::new(number, detail)));
    match guarded(|| PublishedJob::new(room, job).route())? {
        Ok(net) => tree_of(room, &at_limits(job, net)?),
        Err(MultiNetError::Physical(PhysicalError::CellOverlap(pos))) => {
            refused(7, cell(room, pos)? as u32)
        }
        Err(MultiNetError::Port(_)) => refused(8, first_bad_port(job)?),
        Err(MultiNetError::NoTreeConnection(pos)) => refused(14, cell(room, pos)? as u32),
        Err(error) => Err(format!("an error of another kind: {error:?}")),
    }
}

/// The net with the repeaters that the job's limits ask for: `route_net_tree` has 12 and 8 alone, and gives the same there.
pub(crate) fn at_limits(job: &Job, net: RoutedNet) -> Result<RoutedNet, String> {
    let planned = guarded(|| planned_repeaters(job, &net.branches))?;
    let repeaters = planned.map_err(|error| error.to_string())?;
    if job.has_usual_limits() && repeaters != net.repeaters {
        return Err("the two planning functions differ from route_net_tree at 12 and 8".into());
    }
    Ok(RoutedNet { repeaters, ..net })
}

/// The Rust doesn't say which port has number 8: its two functions are asked port by port.
fn first_bad_port(job: &Job) -> Result<u32, String> {
    if terminal_for_endpoint(&endpoint(&job.source)).is_err() {
        return Ok(0);
    }
    let sinks = job.sinks.iter().zip(1..);
    sinks
        .filter(|(sink, _)| realize_sink_endpoint(&endpoint(&sink.port)).is_err())
        .map(|(_, number)| number)
        .next()
        .ok_or("a port error without a bad port".into())
}

/// The published Rust's tree, by cell numbers.
pub fn tree_of(room: &Room, net: &RoutedNet) -> Result<TreeAnswer, String> {
    let branches = net.branches.iter().map(|branch| cells(room, branch));
    let branches: Vec<_> = branches.collect::<Result<_, _>>()?;
    let source = terminal_for_endpoint(&net.source).map_err(|error| error.to_string())?;
    let mut laid: BTreeSet<Pos> = net.branches.iter().flatten().copied().collect();
    laid.insert(source);
    if net.occupied != laid {
        return Err("occupied is not the source and the branches".into());
    }
    Ok(TreeAnswer::Tree {
        branches,
        occupied: net.occupied.len() as u32,
        repeaters: cells(room, &net.repeaters)?,
    })
}

pub(crate) fn cells<'a>(
    room: &Room,
    list: impl IntoIterator<Item = &'a Pos>,
) -> Result<Vec<u16>, String> {
    let cells: Vec<_> = list
        .into_iter()
        .map(|pos| cell(room, *pos))
        .collect::<Result<_, _>>()?;
    Ok(cells16(&cells))
}

fn cell(room: &Room, pos: Pos) -> Result<usize, String> {
    cell_at(room, pos).ok_or(format!("{pos:?} is outside"))
}
