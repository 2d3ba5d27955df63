//! The repeaters of branches that are laid: the published Rust's two planning functions against the plain planning, at any limits.

use std::collections::BTreeSet;

use cases::plan::{Plan, PlanAnswer, Planned};
use cases::repeaters::plan;
use cases::room::Room;
use cases::search::cells16;
use cases::sheet::{Job, Sheet};
use cases::text::{plan_answer_lines, plan_lines, sheet_lines};
use published::world::Pos;

use crate::compare_tree::cells;
use crate::published_side::{guarded, planned_repeaters, pos_of};
use crate::{Disagreement, agreed};

/// The repeaters of a judged job's branches at its limits, or how the two differ.
pub fn check_plan(
    job: &Job,
    room: &Room,
    branches: &[Vec<usize>],
) -> Result<BTreeSet<usize>, Disagreement> {
    let repeaters = plan(job, room, branches);
    let expected = cells16(&repeaters.iter().copied().collect::<Vec<_>>());
    let found = published_plan(job, room, branches);
    let lines = || {
        let laid: Vec<_> = branches
            .iter()
            .map(|branch| format!("{branch:?}\n"))
            .collect();
        sheet_lines(&Sheet::of_route(job.bytes())) + &laid.concat()
    };
    agreed(expected.clone(), &expected, found, lines, |cells| {
        format!("repeaters {cells:?}\n")
    })?;
    Ok(repeaters)
}

/// The answer to one call for repeaters, on which the published Rust's two functions and the plain planning agree. Refusals are the plain
/// planning's alone.
pub fn check_repeaters(case: &Plan) -> Result<PlanAnswer, Disagreement> {
    let answer = case.plain_answer();
    let published = match case.judge() {
        Ok(Planned {
            job,
            room,
            branches,
        }) => published_plan(&job, &room, &branches).map(PlanAnswer::Repeaters),
        Err(_) => Ok(answer.clone()),
    };
    agreed(
        answer.clone(),
        &answer,
        published,
        || plan_lines(case),
        plan_answer_lines,
    )
}

/// The cells of the repeaters that the published Rust plans along these branches, ascending.
fn published_plan(job: &Job, room: &Room, branches: &[Vec<usize>]) -> Result<Vec<u16>, String> {
    let positions: Vec<Vec<Pos>> = branches
        .iter()
        .map(|branch| branch.iter().map(|cell| pos_of(room, *cell)).collect())
        .collect();
    guarded(|| planned_repeaters(job, &positions))
        .and_then(|planned| planned.map_err(|error| error.to_string()))
        .and_then(|planned| cells(room, &planned))
}
