//! Random sheets in both modes, and why a sink wasn't reached: the proved function against the plain router and its flood, with all lent
//! memory. In the published mode the tree is the published Rust's too.

use cases::room::{MOST_CELLS, Room};
use cases::sheet::Job;
use cases::stats::{Tally, count_tree_why};
use cases::text::{tree_why_answer_lines, tree_why_lines};
use cases::tree::Mode;
use checks::tree_why_due;
use dustroute::lent::{TREE_WHY_VALUES, TreeWhyMemory};
use oracle::{Refusal, Rng, TreeAnswer, TreeWhy, TreeWhyAnswer, check_tree_why, random_tree_why};

use crate::compare::{Differences, Draw, extra, told_unless_same};
use crate::compare_trees::lengths;
use crate::proved::{tree_memory, tree_why_memory};

/// So many sheets are drawn at most for each 14 that is asked for.
const MOST_DRAWN: u64 = 20;

/// Compares random sheets until `count` were refused with 14, and prints a summary; false if anything differs.
pub fn compare(draw: &Draw) -> bool {
    let mut tally = Tally::default();
    let mut differences = Differences::default();
    let (mut drawn, mut refused) = (0, 0);
    while refused < draw.count && drawn < MOST_DRAWN * draw.count {
        let case = random_tree_why(&mut Rng::for_case(draw.seed, drawn), draw.profile);
        let found = expected_answer(draw, &case).and_then(|expected| {
            count_tree_why(&mut tally, &case, &expected);
            refused += u64::from(expected.number() == 14);
            differs(&case, &expected, drawn)
        });
        if let Err(what) = found {
            differences.add(&draw.name(drawn), &what, &tree_why_lines(&case));
        }
        drawn += 1;
    }
    print!("{}", tally.lines());
    println!(
        "{drawn} sheets of seed {}, {refused} of them refused with 14",
        draw.seed
    );
    differences.told()
}

fn expected_answer(draw: &Draw, case: &TreeWhy) -> Result<TreeWhyAnswer, String> {
    if draw.published {
        return check_tree_why(case).map_err(|difference| difference.to_string());
    }
    Ok(case.plain_answer())
}

/// How much memory is lent: that of the tree, and the reason's three outputs.
#[derive(Clone, Copy)]
struct Lengths {
    cells: usize,
    branch: usize,
    queue: usize,
    values: usize,
    reached: usize,
    walls: usize,
    causes: usize,
}

/// How an answer differs from the expected one, if it does: through memory of just the lengths of the case, through longer memory, and
/// with each output one short, and one of them or the values at any length below. All memory is full of rubbish before.
fn differs(case: &TreeWhy, expected: &TreeWhyAnswer, index: u64) -> Result<(), String> {
    let salt = index as u8;
    let [cells, branch, queue] = lengths(&case.sheet);
    let exact = Lengths {
        cells,
        branch,
        queue,
        values: TREE_WHY_VALUES,
        reached: case.reached as usize,
        walls: case.walls as usize,
        causes: case.causes as usize,
    };
    proved_differs(case, expected, exact, salt)?;
    let extra = extra(expected.number(), salt);
    // One number more is no place of the queue.
    let longer = Lengths {
        cells: cells + extra,
        branch,
        queue: queue + 1,
        values: TREE_WHY_VALUES + extra,
        reached: exact.reached + extra,
        walls: exact.walls + 3 * extra,
        causes: exact.causes + 2 * extra,
    };
    proved_differs(case, expected, longer, salt)?;
    for short in shortened(case, exact, index) {
        proved_differs(case, &refused(expected.number()), short, salt)?;
    }
    Ok(())
}

/// Where none of 1 to 5 is due, a buffer too short is 6.
fn refused(number: u8) -> TreeWhyAnswer {
    let number = if matches!(number, 1..=5) { number } else { 6 };
    let tree = TreeAnswer::Refused(Refusal::bare(number));
    TreeWhyAnswer { tree, reason: None }
}

/// The number of cells; 0 for a sheet without a room.
fn cells_of(case: &TreeWhy) -> usize {
    let room = Job::read(&case.sheet.bytes).map(|job| Room::new(job.sides, MOST_CELLS));
    room.ok().flatten().map_or(0, |room| room.cells())
}

fn shortened(case: &TreeWhy, exact: Lengths, index: u64) -> Vec<Lengths> {
    let (cells, mut rng) = (cells_of(case), Rng::new(index));
    if cells == 0 {
        return Vec::new();
    }
    let reached = |reached| Lengths { reached, ..exact };
    let walls = |walls| Lengths { walls, ..exact };
    let causes = |causes| Lengths { causes, ..exact };
    let any = match index % 4 {
        0 => reached(rng.below(cells)),
        1 => walls(rng.below(12 * cells)),
        2 => causes(rng.below(cells)),
        _ => Lengths {
            values: rng.below(TREE_WHY_VALUES),
            ..exact
        },
    };
    let by_one = [reached(cells - 1), walls(12 * cells - 1), causes(cells - 1)];
    by_one.into_iter().chain([any]).collect()
}

fn lent(lengths: Lengths, byte: u8) -> TreeWhyMemory {
    let Lengths {
        cells,
        branch,
        queue,
        values,
        reached,
        walls,
        causes,
    } = lengths;
    let tree = tree_memory(cells, branch, queue, values, byte);
    tree_why_memory(tree, [reached, walls, causes], byte)
}

/// The number that stands for the mode: for strict any but 0.
fn strict(case: &TreeWhy, salt: u8) -> u32 {
    match case.mode {
        Mode::Published => 0,
        Mode::Strict => 1 << (salt % 32),
    }
}

fn proved_differs(
    case: &TreeWhy,
    expected: &TreeWhyAnswer,
    lengths: Lengths,
    salt: u8,
) -> Result<(), String> {
    let before = lent(lengths, salt | 1);
    let mut after = before.clone();
    let number = after.call(strict(case, salt), &case.sheet.bytes);
    let due = tree_why_due(&before, case, cells_of(case), expected);
    let (tree, due_tree) = (&after.tree, &due.tree);
    let same = [
        ("number", number == u32::from(expected.number())),
        ("branches", tree.branches == due_tree.branches),
        ("occupied", tree.occupied == due_tree.occupied),
        ("repeaters", tree.repeaters == due_tree.repeaters),
        ("reached", after.reached == due.reached),
        ("walls", after.walls == due.walls),
        ("causes", after.causes == due.causes),
        ("kinds", tree.kinds == due_tree.kinds),
        ("blocked", tree.blocked == due_tree.blocked),
        ("classes", tree.classes == due_tree.classes),
        ("joinable", tree.joinable == due_tree.joinable),
        ("known", tree.known == due_tree.known),
        ("previous", tree.previous == due_tree.previous),
        ("path", tree.path == due_tree.path),
        ("best", tree.best == due_tree.best),
        ("queue", tree.queue == due_tree.queue),
        ("values", tree.values == due_tree.values),
    ];
    told_unless_same(&same, || {
        let lines = tree_why_answer_lines(expected);
        let values = &tree.values;
        format!("number {number}, values {values:?}, due\n{lines}")
    })
}
