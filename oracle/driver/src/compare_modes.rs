//! Random sheets in both modes: the published one against the oracle's answers, strict mode against the plain router, with all lent
//! memory.

use std::collections::BTreeMap;

use cases::stats::{Tally, count_sheet};
use cases::strict::Apart;
use cases::text::sheet_lines;
use oracle::{Rng, Sheet, StrictSheet, TreeAnswer, check_sheet, random_strict};

use crate::compare::{Differences, Draw};
use crate::compare_trees::{Call, differs};

/// Compares `count` random sheets in both modes and prints a summary; false if anything differs.
pub fn compare(draw: &Draw) -> bool {
    let mut tally = Tally::default();
    let mut apart = BTreeMap::new();
    let mut differences = Differences::default();
    for index in 0..draw.count {
        let case = random_strict(&mut Rng::for_case(draw.seed, index), draw.profile);
        let strict = case.plain_answer();
        count_sheet(&mut tally, &case.0, &strict);
        let found = published_answer(draw, &case.0).and_then(|published| {
            *apart.entry(Apart::of(&published, &strict)).or_insert(0) += 1;
            modes_differ(&case, &published, &strict, index)
        });
        if let Err(what) = found {
            differences.add(&draw.name(index), &what, &sheet_lines(&case.0));
        }
    }
    print!("{}", tally.lines());
    println!("{} sheets of seed {} in both modes", draw.count, draw.seed);
    println!("{}", told(&apart));
    differences.told()
}

fn published_answer(draw: &Draw, case: &Sheet) -> Result<TreeAnswer, String> {
    if draw.published {
        return check_sheet(case).map_err(|difference| difference.to_string());
    }
    Ok(case.plain_answer())
}

/// The published mode through both functions; strict mode by 1, and by any other number but 0.
fn modes_differ(
    case: &StrictSheet,
    published: &TreeAnswer,
    strict: &TreeAnswer,
    index: u64,
) -> Result<(), String> {
    let salt = index as u8;
    let other = Rng::new(index).below(u32::MAX as usize) as u32 + 1;
    for (call, expected, name) in [
        (Call::Plain, published, "dustroute_tree"),
        (Call::InMode(0), published, "dustroute_tree_mode, 0"),
        (Call::InMode(1), strict, "dustroute_tree_mode, 1"),
        (Call::InMode(other), strict, "dustroute_tree_mode, strict"),
    ] {
        differs(&case.0, expected, call, salt).map_err(|what| format!("{name}: {what}"))?;
    }
    Ok(())
}

fn told(apart: &BTreeMap<Apart, u64>) -> String {
    let count = |way| apart.get(&way).copied().unwrap_or(0);
    let [trees, refuses, routes, refusals] = [
        Apart::AnotherTree,
        Apart::StrictRefuses,
        Apart::StrictRoutes,
        Apart::AnotherRefusal,
    ]
    .map(count);
    format!(
        "the modes differ in {}: another tree {trees}, strict refuses {refuses}, strict routes {routes}, another refusal {refusals}",
        trees + refuses + routes + refusals
    )
}
