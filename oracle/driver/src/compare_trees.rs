//! Random sheets: the proved tree against the oracle's answers, with all lent memory.

use cases::stats::{Tally, count_sheet, has_rich_tree};
use cases::text::{sheet_lines, tree_answer_lines};
use cases::tree::Mode;
use checks::tree_due;
use dustroute::lent::{TREE_VALUES, TreeMemory};
use oracle::{Profile, Refusal, Rng, Sheet, TreeAnswer, check_sheet, random_limit_sheet, random_sheet};

use crate::compare::{Differences, Draw, extra, told_unless_same};
use crate::proved::tree_memory;

/// Compares `count` random sheets of version 1 and prints a summary; false if anything differs.
pub fn compare(draw: &Draw) -> bool {
    compare_made(draw, random_sheet)
}

/// The same with sheets of both versions, at any limits.
pub fn compare_limits(draw: &Draw) -> bool {
    compare_made(draw, |rng, profile| random_limit_sheet(rng, profile).0)
}

fn compare_made(draw: &Draw, made: fn(&mut Rng, Profile) -> Sheet) -> bool {
    let mut tally = Tally::default();
    let mut differences = Differences::default();
    for (index, case) in sheets(draw, made).take(draw.count as usize) {
        let found = expected_answer(draw, &case).and_then(|expected| {
            count_sheet(&mut tally, &case, &expected);
            differs(&case, &expected, Call::Plain, index as u8)
        });
        if let Err(what) = found {
            differences.add(&draw.name(index), &what, &sheet_lines(&case));
        }
    }
    print!("{}", tally.lines());
    println!("{} sheets of seed {}", draw.count, draw.seed);
    differences.told()
}

/// The sheets of the seed that are wanted, each with its index.
fn sheets(
    draw: &Draw,
    made: fn(&mut Rng, Profile) -> Sheet,
) -> impl Iterator<Item = (u64, Sheet)> {
    (0..)
        .map(move |index| {
            let mut rng = Rng::for_case(draw.seed, index);
            (index, made(&mut rng, draw.profile))
        })
        .filter(|(_, case)| !draw.rich || has_rich_tree(case, &case.plain_answer()))
}

fn expected_answer(draw: &Draw, case: &Sheet) -> Result<TreeAnswer, String> {
    if draw.published {
        return check_sheet(case).map_err(|difference| difference.to_string());
    }
    Ok(case.plain_answer())
}

/// Which exported function is called.
#[derive(Clone, Copy)]
pub enum Call {
    /// `dustroute_tree`.
    Plain,
    /// `dustroute_tree_mode`, with this number for the mode.
    InMode(u32),
}

impl Call {
    fn mode(self) -> Mode {
        match self {
            Self::Plain | Self::InMode(0) => Mode::Published,
            Self::InMode(_) => Mode::Strict,
        }
    }

    pub fn of(self, memory: &mut TreeMemory, sheet: &[u8]) -> u32 {
        match self {
            Self::Plain => memory.call(sheet),
            Self::InMode(strict) => memory.call_mode(strict, sheet),
        }
    }
}

/// How an answer differs from the expected one, if it does: through memory of just the lengths of the case, through longer
/// memory, with too few values, and with a branch buffer that is just full and one cell short. All memory is full of rubbish
/// before.
pub fn differs(case: &Sheet, expected: &TreeAnswer, call: Call, salt: u8) -> Result<(), String> {
    let [cells, branch, queue] = lengths(case);
    let memory = |cells, queue, values| tree_memory(cells, branch, queue, values, salt | 1);
    let number = expected.number();
    let tree_differs = |expected, lent| tree_differs(case, expected, call, lent);
    tree_differs(expected, memory(cells, queue, TREE_VALUES))?;
    let extra = extra(number, salt);
    // One number more is no place of the queue.
    let longer = memory(cells + extra, queue + 1, TREE_VALUES + extra);
    tree_differs(expected, longer)?;
    let few = if matches!(number, 1..=5) { number } else { 6 };
    let refused = TreeAnswer::Refused(Refusal::bare(few));
    let short = memory(cells, queue, usize::from(salt) % TREE_VALUES);
    tree_differs(&refused, short)?;
    at_branch_length_differs(case, expected, call, salt)
}

/// The lengths that a case names: cells, the branch buffer, and the queue's numbers, two a place.
pub fn lengths(case: &Sheet) -> [usize; 3] {
    [case.lent, case.branch, 2 * case.queue].map(|length| length as usize)
}

/// How an answer differs with a branch buffer that is just full, or one cell short.
fn at_branch_length_differs(
    case: &Sheet,
    expected: &TreeAnswer,
    call: Call,
    salt: u8,
) -> Result<(), String> {
    let TreeAnswer::Tree { branches, .. } = expected else {
        return Ok(());
    };
    let used = branches.iter().map(Vec::len).sum::<usize>() as u32;
    for branch in used.saturating_sub(1)..=used {
        let case = Sheet {
            branch,
            ..case.clone()
        };
        let due = if branch == used {
            expected.clone()
        } else {
            case.plain_answer_in(call.mode())
        };
        let [cells, branch, queue] = lengths(&case);
        let memory = tree_memory(cells, branch, queue, TREE_VALUES, salt | 1);
        tree_differs(&case, &due, call, memory)?;
    }
    Ok(())
}

pub fn tree_differs(
    case: &Sheet,
    expected: &TreeAnswer,
    call: Call,
    before: TreeMemory,
) -> Result<(), String> {
    let mut after = before.clone();
    let number = call.of(&mut after, &case.bytes);
    let due = tree_due(&before, case, expected);
    let same = [
        ("number", number == u32::from(expected.number())),
        ("branches", after.branches == due.branches),
        ("occupied", after.occupied == due.occupied),
        ("repeaters", after.repeaters == due.repeaters),
        ("kinds", after.kinds == due.kinds),
        ("blocked", after.blocked == due.blocked),
        ("classes", after.classes == due.classes),
        ("joinable", after.joinable == due.joinable),
        ("known", after.known == due.known),
        ("previous", after.previous == due.previous),
        ("path", after.path == due.path),
        ("best", after.best == due.best),
        ("queue", after.queue == due.queue),
        ("values", after.values == due.values),
    ];
    told_unless_same(&same, || {
        let lines = tree_answer_lines(expected);
        format!("number {number}, values {:?}, due\n{lines}", after.values)
    })
}
