//! The repeaters of random trees at many limits: the proved tree and the one call for repeaters, over the tree's branches, against the published Rust's two planning functions and the plain planning.

use std::collections::BTreeMap;

use cases::generate::set_limits;
use cases::plan::{Plan, PlanAnswer};
use cases::room::{MOST_CELLS, Room};
use cases::sheet::{Job, MOST_BYTES};
use cases::text::sheet_lines;
use cases::tree::{Limits, Net, route_net_tree};
use cases::version::Version;
use checks::plan_fault;
use dustroute::lent::TREE_VALUES;
use oracle::{Rng, Sheet, check_plan, random_limit_sheet};

use crate::compare::{Differences, Draw};
use crate::compare_trees::{Call, lengths, tree_differs};
use crate::proved::tree_memory;

/// So many limits of each tree are compared.
const LIMITS: u64 = 8;

/// Compares `count` plans and prints a summary; false if anything differs.
pub fn compare(draw: &Draw) -> bool {
    let mut differences = Differences::default();
    let mut repeaters = BTreeMap::new();
    let (mut plans, mut trees) = (0, 0);
    for index in 0.. {
        if plans >= draw.count {
            break;
        }
        let Some((mut job, room, net)) = tree(draw, index) else {
            continue;
        };
        trees += 1;
        let mut rng = Rng::for_case(draw.seed, !index);
        for _ in 0..LIMITS.min(draw.count - plans) {
            set_limits(&mut rng, &mut job);
            match differs(&job, &room, &net, index as u8) {
                Ok(count) => *repeaters.entry(count.min(6)).or_insert(0) += 1,
                Err(what) => {
                    let sheet = Sheet::of_route(job.bytes());
                    differences.add(&draw.name(index), &what, &sheet_lines(&sheet));
                }
            }
            plans += 1;
        }
    }
    println!("{plans} plans of {trees} trees of seed {}", draw.seed);
    println!("by the number of repeaters, 6 for 6 and more: {repeaters:?}");
    differences.told()
}

/// A tree with a branch, of the draw's case at this index, and its job in a version that carries limits.
fn tree(draw: &Draw, index: u64) -> Option<(Job, Room, Net)> {
    let case = random_limit_sheet(&mut Rng::for_case(draw.seed, index), draw.profile);
    let (mut job, room) = case.0.judge(MOST_CELLS).ok()?;
    let net = route_net_tree(&job, &room, Limits::NONE).ok()?;
    if !job.version.limits {
        job.version = Version::TWO;
    }
    // A sheet of nearly 60,000 bytes has no room for limits.
    let is_short = job.bytes().len() <= MOST_BYTES;
    (is_short && !net.branches.is_empty()).then_some((job, room, net))
}

/// How many repeaters there are, or how they differ: the one call and the whole tree by the archive, with all lent memory.
fn differs(job: &Job, room: &Room, net: &Net, salt: u8) -> Result<usize, String> {
    let repeaters = check_plan(job, room, &net.branches).map_err(|what| what.to_string())?;
    let count = repeaters.len();
    let told = repeaters.iter().map(|cell| *cell as u16).collect();
    let asked = Plan::of(job, room, &net.branches);
    if let Some(what) = plan_fault(&asked, &PlanAnswer::Repeaters(told), salt | 1, 0) {
        return Err(format!("the one call for repeaters: {what}"));
    }
    let due = Net {
        repeaters,
        ..net.clone()
    };
    let case = Sheet {
        queue: 12 * room.cells() as u32,
        branch: net.branch_cells() as u32,
        lent: room.cells() as u32,
        bytes: job.bytes(),
    };
    let [cells, branch, queue] = lengths(&case);
    let memory = tree_memory(cells, branch, queue, TREE_VALUES, salt | 1);
    tree_differs(&case, &due.answer(), Call::Plain, memory)?;
    Ok(count)
}
