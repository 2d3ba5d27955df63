//! The plain flood: the examples, and what must hold of every reason.

use std::collections::BTreeSet;

use cases::examples;
use cases::generate::{Profile, whys};
use cases::room::{Room, moves};
use cases::search::Question;
use cases::why::{MOVES, Why, WhyAnswer, reason};

#[test]
fn examples_of_whys() {
    for (name, case, answer) in examples::whys() {
        assert_eq!(case.plain_answer(), answer, "{name}");
    }
}

fn some_whys() -> impl Iterator<Item = Why> {
    let tiny = whys(31, 6_000, Profile::Tiny);
    tiny.into_iter().chain(whys(32, 1_500, Profile::Small))
}

/// The steps of the plain search, which says the rules apart from the flood.
fn question<'a>(case: &'a Why, room: &'a Room) -> Question<'a> {
    Question {
        room,
        kinds: &case.search.kinds,
        start: case.search.start as usize,
        goal: case.search.goal as usize,
        config: &case.search.config,
        places: 1,
        barred: &[],
    }
}

/// The cells reached hold the start and lack the goal; a move is allowed exactly where the search has a step, and such a step
/// leads to a cell that is reached.
fn holds(case: &Why, room: &Room, answer: &WhyAnswer) {
    let question = question(case, room);
    let reached: BTreeSet<usize> = answer.reached.iter().map(|told| told.cell.into()).collect();
    assert!(reached.contains(&question.start) && !reached.contains(&question.goal));
    for told in &answer.reached {
        for (given, offset) in told.moves.into_iter().zip(moves()) {
            let step = question.step(told.cell.into(), offset);
            assert_eq!(given == reason::ALLOWED, step.is_some());
            assert!(step.is_none_or(|(next, _)| reached.contains(&next)));
        }
    }
}

#[test]
fn no_step_leaves_the_cells_reached() {
    let mut told = 0;
    for case in some_whys() {
        let answer = case.plain_answer();
        if let (Ok(room), 11) = (case.judge(), answer.number()) {
            holds(&case, &room, &answer);
            told += 1;
        }
    }
    assert!(told > 2_000, "{told}");
}

/// Where the search is not cut short, the flood reaches the goal exactly if there is a route.
#[test]
fn the_flood_agrees_with_the_search() {
    for case in some_whys() {
        let Ok(room) = case.judge() else { continue };
        let answer = case.plain_answer();
        let goal = case.search.goal as u16;
        let met = case.flood(&room).iter().any(|told| told.cell == goal);
        match answer.number() {
            0 => assert!(met),
            11 => assert!(!met),
            _ => assert!(answer.reached.is_empty()),
        }
    }
}

/// Costs, node limit and queue have no part in what is reached.
#[test]
fn the_reason_hangs_on_kinds_and_ends_alone() {
    let answers = some_whys().map(|case| (case.plain_answer(), case));
    for (answer, mut case) in answers.filter(|(answer, _)| answer.number() == 11) {
        case.search.config = cases::room::Config::DEFAULT;
        case.search.config.node_limit = cases::room::MOST_NODES;
        case.search.queue = 1 << 20;
        assert_eq!(case.plain_answer().reached, answer.reached);
    }
}

/// A fifth is refused as it is read, and a third of all has no way.
#[test]
fn the_generator_shuts_ends_off() {
    let cases = whys(33, 4_000, Profile::Mixed);
    let numbers: Vec<u8> = cases
        .iter()
        .map(|case| case.plain_answer().number())
        .collect();
    let count = |due: &[u8]| numbers.iter().filter(|number| due.contains(number)).count();
    assert!((640..960).contains(&count(&[2, 3, 4, 5, 6])));
    assert!(count(&[11]) > 1_200, "{}", count(&[11]));
    for number in [0, 2, 3, 4, 5, 6, 10, 12, 13] {
        assert!(count(&[number]) > 20, "{number}");
    }
    let told = cases.iter().flat_map(|case| case.plain_answer().reached);
    let reasons: BTreeSet<u8> = told.flat_map(|told| told.moves).collect();
    assert_eq!(reasons, BTreeSet::from([0, 1, 2, 3]));
}

#[test]
fn outputs_have_a_byte_a_cell_and_twelve() {
    let (_, case, answer) = examples::whys().swap_remove(2);
    let cells = case.judge().unwrap().cells();
    assert_eq!(answer.reached_bytes(cells), [0, 1, 1, 1, 0, 0]);
    let walls = answer.walls_bytes(cells);
    assert_eq!(walls.len(), MOVES * cells);
    assert_eq!(walls[2 * MOVES..2 * MOVES + 6], [1, 2, 3, 1, 2, 3]);
    let mut unreached = walls[..MOVES].iter().chain(&walls[4 * MOVES..]);
    assert!(unreached.all(|byte| *byte == 0));
}
