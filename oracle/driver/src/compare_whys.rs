//! Random searches with their reason: the proved function against the plain flood and the oracle's answers, with all lent memory.

use cases::room::{MOST_CELLS, Room};
use cases::stats::{Tally, count_why};
use cases::text::{why_answer_lines, why_lines};
use checks::why_due;
use dustroute::lent::{SEARCH_VALUES, WhyMemory};
use oracle::{Refusal, Rng, SearchAnswer, Why, WhyAnswer, check_why, random_why};

use crate::compare::{Differences, Draw, extra, told_unless_same};
use crate::proved::{self, search_memory, why_memory};

/// Compares `count` random searches with their reason and prints a summary; false if anything differs.
pub fn compare(draw: &Draw) -> bool {
    let mut tally = Tally::default();
    let mut differences = Differences::default();
    for index in 0..draw.count {
        let case = random_why(&mut Rng::for_case(draw.seed, index), draw.profile);
        let found = expected_answer(draw, &case).and_then(|expected| {
            count_why(&mut tally, &case, &expected);
            differs(&case, &expected, index)
        });
        if let Err(what) = found {
            differences.add(&draw.name(index), &what, &why_lines(&case));
        }
    }
    print!("{}", tally.lines());
    println!("{} whys of seed {}", draw.count, draw.seed);
    differences.told()
}

fn expected_answer(draw: &Draw, case: &Why) -> Result<WhyAnswer, String> {
    if draw.published {
        return check_why(case).map_err(|difference| difference.to_string());
    }
    Ok(case.plain_answer())
}

/// How much memory is lent: cells of the search's buffers, numbers of the queue, values, and the two outputs of the reason.
#[derive(Clone, Copy)]
struct Lengths {
    cells: usize,
    queue: usize,
    values: usize,
    reached: usize,
    walls: usize,
}

/// How an answer differs from the expected one, if it does: through memory of just the lengths of the case, through longer memory,
/// and with one output too short, each by one and by any length. All memory is full of rubbish before.
fn differs(case: &Why, expected: &WhyAnswer, index: u64) -> Result<(), String> {
    let salt = index as u8;
    let exact = Lengths {
        cells: case.search.lent as usize,
        queue: 2 * case.search.queue as usize,
        values: SEARCH_VALUES,
        reached: case.reached as usize,
        walls: case.walls as usize,
    };
    proved_differs(case, expected, exact, salt)?;
    let extra = extra(expected.number(), salt);
    // One number more is no place of the queue.
    let longer = Lengths {
        cells: exact.cells + extra,
        queue: exact.queue + 1,
        values: exact.values + extra,
        reached: exact.reached + extra,
        walls: exact.walls + 3 * extra,
    };
    proved_differs(case, expected, longer, salt)?;
    for short in shortened(case, exact, index) {
        proved_differs(case, &refused(expected.number()), short, salt)?;
    }
    Ok(())
}

/// Where 2 or 3 is not due, a buffer too short is 6.
fn refused(number: u8) -> WhyAnswer {
    let number = if matches!(number, 2 | 3) { number } else { 6 };
    WhyAnswer {
        search: SearchAnswer::Refused(Refusal::bare(number)),
        reached: Vec::new(),
    }
}

/// The number of cells; 0 for a room that is refused.
fn cells_of(case: &Why) -> usize {
    Room::new(case.search.sides, MOST_CELLS).map_or(0, |room| room.cells())
}

/// Each output one short of what it needs, and one of them, or the values, at any length below. A room that is refused needs none.
fn shortened(case: &Why, exact: Lengths, index: u64) -> Vec<Lengths> {
    let (cells, mut rng) = (cells_of(case), Rng::new(index));
    if cells == 0 {
        return Vec::new();
    }
    let reached = |reached| Lengths { reached, ..exact };
    let walls = |walls| Lengths { walls, ..exact };
    let any = match index % 3 {
        0 => reached(rng.below(cells)),
        1 => walls(rng.below(12 * cells)),
        _ => Lengths {
            values: rng.below(SEARCH_VALUES),
            ..exact
        },
    };
    vec![reached(cells - 1), walls(12 * cells - 1), any]
}

fn lent(lengths: Lengths, byte: u8) -> WhyMemory {
    let search = search_memory(lengths.cells, lengths.queue, lengths.values, byte);
    why_memory(search, lengths.reached, lengths.walls, byte)
}

fn proved_differs(
    case: &Why,
    expected: &WhyAnswer,
    lengths: Lengths,
    salt: u8,
) -> Result<(), String> {
    let before = lent(lengths, salt | 1);
    let mut after = before.clone();
    let number = proved::why(&case.search, &mut after);
    let due = why_due(&before, &case.search, cells_of(case), expected);
    let same = [
        ("number", number == u32::from(expected.number())),
        ("path", after.search.path == due.search.path),
        ("reached", after.reached == due.reached),
        ("walls", after.walls == due.walls),
        ("known", after.search.known == due.search.known),
        ("previous", after.search.previous == due.search.previous),
        ("classes", after.search.classes == due.search.classes),
        ("queue", after.search.queue == due.search.queue),
        ("values", after.search.values == due.search.values),
    ];
    told_unless_same(&same, || {
        let lines = why_answer_lines(expected);
        let values = &after.search.values;
        format!("number {number}, values {values:?}, due\n{lines}")
    })
}
