//! The whole net hangs together: the claims tested on the trees that the proved router answers.

use cases::connected::Answered;
use cases::room::MOST_CELLS;
use cases::sheet::MOST_SINKS;
use cases::text::sheet_lines;
use dustroute::lent::TREE_VALUES;
use dustroute::{Sheet, Tree};
use oracle::{Rng, random_sheet};

use crate::compare::{Differences, Draw};
use crate::compare_trees::lengths;
use crate::proved::tree_memory;

/// Tests the claims on `count` trees of random sheets and prints a summary; false if one does not hold.
pub fn check(draw: &Draw) -> bool {
    let mut broken = Differences::default();
    let [mut trees, mut rings, mut sixteen, mut repeaters] = [0; 4];
    let mut sheets = 0;
    while trees < draw.count {
        let case = random_sheet(&mut Rng::for_case(draw.seed, sheets), draw.profile);
        if let Some(tree) = answered(&case) {
            trees += 1;
            rings += u64::from(tree.has_ring());
            sixteen += u64::from(tree.branches.len() == MOST_SINKS);
            repeaters += u64::from(!tree.repeaters.is_empty());
            if let [first, ..] = tree.broken()[..] {
                let what = format!("does not hold: {first}");
                broken.add(&draw.name(sheets), &what, &sheet_lines(&case));
            }
        }
        sheets += 1;
    }
    println!("{trees} trees of {sheets} sheets of seed {}", draw.seed);
    println!("{rings} with a ring, {sixteen} with sixteen sinks, {repeaters} with repeaters");
    println!("{} trees of which a claim does not hold", broken.count());
    broken.count() == 0
}

/// The proved router's tree of a sheet, through memory of just the lengths that the case names; none if it is refused.
fn answered(case: &oracle::Sheet) -> Option<Answered> {
    let [cells, branch, queue] = lengths(case);
    let mut memory = tree_memory(cells, branch, queue, TREE_VALUES, 1);
    let sheet = Sheet::from_bytes(case.bytes.as_slice());
    let Tree {
        branches,
        occupied,
        repeaters,
    } = memory.route_tree(&sheet).ok()?;
    let (job, room) = case.judge(MOST_CELLS).ok()?;
    let number = |cell: u32| cell as usize;
    let branches = branches.into_iter();
    Answered::new(
        &job,
        &room,
        branches
            .map(|branch| branch.into_iter().map(number).collect())
            .collect(),
        occupied.into_iter().map(number).collect(),
        repeaters.into_iter().map(number).collect(),
    )
}
