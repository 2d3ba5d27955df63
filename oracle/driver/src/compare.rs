//! Random searches: the proved search and the plain Rust over flat arrays against the oracle's answers.

use cases::text::{search_answer_lines, search_lines};
use checks::search_due;
use dustroute::lent::{SEARCH_TOTALS, SEARCH_VALUES, SearchMemory};
use oracle::{Profile, Refusal, Rng, Search, SearchAnswer, check_search, random_search};

use crate::flat::Flat;
use crate::proved::{self, search_memory};

pub struct Draw {
    pub seed: u64,
    pub count: u64,
    pub profile: Profile,
    /// Whether the published Rust is asked as well as the plain router.
    pub published: bool,
    /// Whether only sheets are taken that have a tree of two or more sinks with stairs and repeaters.
    pub rich: bool,
}

/// Differences are shown up to so many.
const SHOWN: u64 = 10;

/// How many cases differ so far.
#[derive(Default)]
pub struct Differences(u64);

impl Draw {
    /// What a case of this draw is called where it differs.
    pub fn name(&self, index: u64) -> String {
        format!("case {index} of seed {}", self.seed)
    }
}

impl Differences {
    /// Counts one more, and shows it and its case while they are few.
    pub fn add(&mut self, name: &str, what: &str, case: &str) {
        self.0 += 1;
        if self.0 <= SHOWN {
            println!("{name}: {what}\n{case}");
        }
    }

    pub fn count(&self) -> u64 {
        self.0
    }

    /// Prints the count; whether there are none.
    pub fn told(&self) -> bool {
        println!("{} differences", self.0);
        self.0 == 0
    }
}

/// Compares `count` random searches and prints a summary; false if anything differs.
pub fn compare(draw: &Draw) -> bool {
    let mut flat = Flat::default();
    let mut by_number = [0_u64; 16];
    let mut differences = Differences::default();
    for index in 0..draw.count {
        let case = random_search(&mut Rng::for_case(draw.seed, index), draw.profile);
        let found = expected_answer(draw, &case).and_then(|expected| {
            by_number[usize::from(expected.number())] += 1;
            differs(&case, &expected, &mut flat, index as u8)
        });
        if let Err(what) = found {
            differences.add(&draw.name(index), &what, &search_lines(&case));
        }
    }
    let numbers: Vec<String> = (0..)
        .zip(by_number)
        .filter(|(_, count)| *count > 0)
        .map(|(number, count)| format!("{number}: {count}"))
        .collect();
    println!(
        "{} searches of seed {}, by number {}",
        draw.count,
        draw.seed,
        numbers.join(", ")
    );
    differences.told()
}

fn expected_answer(draw: &Draw, case: &Search) -> Result<SearchAnswer, String> {
    if draw.published {
        return check_search(case).map_err(|difference| difference.to_string());
    }
    Ok(case.plain_answer())
}

/// How much longer memory is lent than a case names. It must not turn a refusal by 6 into an answer.
pub fn extra(number: u8, salt: u8) -> usize {
    if number == 6 {
        0
    } else {
        1 + usize::from(salt % 64)
    }
}

/// How an answer differs from the expected one, if it does: through memory of just the lengths of the case, with none of the
/// totals lent and with each one more, through longer memory, with too few values, and by the plain Rust. All memory is full
/// of rubbish before.
pub fn differs(
    case: &Search,
    expected: &SearchAnswer,
    flat: &mut Flat,
    salt: u8,
) -> Result<(), String> {
    let [cells, queue] = [case.lent as usize, 2 * case.queue as usize];
    let memory = |cells, queue, values| search_memory(cells, queue, values, salt | 1);
    let number = expected.number();
    for values in SEARCH_VALUES..=SEARCH_TOTALS {
        proved_differs(case, expected, memory(cells, queue, values))?;
    }
    let extra = extra(number, salt);
    // One number more is no place of the queue.
    let longer = memory(cells + extra, queue + 1, SEARCH_TOTALS + extra);
    proved_differs(case, expected, longer)?;
    let few = if matches!(number, 2 | 3) { number } else { 6 };
    let refused = SearchAnswer::Refused(Refusal::bare(few));
    let short = memory(cells, queue, usize::from(salt) % SEARCH_VALUES);
    proved_differs(case, &refused, short)?;
    if case.judge().is_ok() && flat.search(case, case.queue as usize) != *expected {
        return Err("the plain Rust over flat arrays differs".into());
    }
    Ok(())
}

fn proved_differs(
    case: &Search,
    expected: &SearchAnswer,
    before: SearchMemory,
) -> Result<(), String> {
    let mut after = before.clone();
    let number = proved::search(case, &mut after);
    let due = search_due(&before, case, expected);
    let same = [
        ("number", number == u32::from(expected.number())),
        ("path", after.path == due.path),
        ("known", after.known == due.known),
        ("previous", after.previous == due.previous),
        ("classes", after.classes == due.classes),
        ("queue", after.queue == due.queue),
        ("values", after.values == due.values),
    ];
    told_unless_same(&same, || {
        let lines = search_answer_lines(expected);
        format!("number {number}, values {:?}, due\n{lines}", after.values)
    })
}

/// An error that names what is not the same and tells the rest, if anything is not.
pub fn told_unless_same(
    same: &[(&str, bool)],
    told: impl FnOnce() -> String,
) -> Result<(), String> {
    let others: Vec<&str> = same
        .iter()
        .filter(|(_, same)| !same)
        .map(|(name, _)| *name)
        .collect();
    if others.is_empty() {
        return Ok(());
    }
    Err(format!("not as due: {}; {}", others.join(", "), told()))
}
