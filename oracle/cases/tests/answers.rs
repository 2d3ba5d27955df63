//! The stored answers: well formed, made as is said, and agreed to by the plain router.

use std::collections::BTreeMap;
use std::fmt::Debug;

use cases::answers::{
    DRAWINGS, FUNCTIONS, LIMIT_SHEETS, LISTS, PLANS, SEARCHES, SHEETS, STRICT_SHEETS, Stored,
    TREE_WHYS, WHYS, WRITES, drawings, functions, limit_sheets, lists, plans, searches, sheets,
    strict_sheets, tree_whys, whys, writes,
};
use cases::drawing::{Drawing, DrawingAnswer};
use cases::files::{Case, read};
use cases::function::Function;
use cases::limits::LimitSheet;
use cases::lists::List;
use cases::nets::ListAnswer;
use cases::parts::Parts;
use cases::plan::{Plan, PlanAnswer};
use cases::room::MOST_CELLS;
use cases::search::Search;
use cases::sheet::{MOST_BYTES, Sheet, TreeAnswer};
use cases::strict::StrictSheet;
use cases::tree_why::{TreeWhy, TreeWhyAnswer};
use cases::version::Version;
use cases::why::Why;

/// The cases of a file with their answers: they are those that are made, and the plain router agrees.
fn agreed<C>(file: &Stored, made: Vec<C>, plain: fn(&C) -> C::Answer) -> Vec<(C, C::Answer)>
where
    C: Case<Answer: Debug + PartialEq> + PartialEq,
{
    let stored = read::<C>(&file.bytes()).unwrap();
    assert_eq!(stored.len(), made.len());
    let mut cases = Vec::new();
    for (index, ((case, answer), made)) in stored.into_iter().zip(made).enumerate() {
        let answer = answer.unwrap();
        assert!(case == made, "case {index} is another");
        assert_eq!(answer, plain(&case), "case {index}");
        cases.push((case, answer));
    }
    cases
}

/// Each number of `due` is found so often or more.
fn is_common(due: &[u8], least: usize, found: impl Iterator<Item = u8>) {
    let mut counts = BTreeMap::new();
    for number in found {
        *counts.entry(number).or_insert(0) += 1;
    }
    for number in due {
        assert!(counts[number] >= least, "{counts:?}");
    }
}

#[test]
fn stored_searches() {
    let stored = agreed(&SEARCHES, searches(), Search::plain_answer);
    let numbers = stored.iter().map(|(_, answer)| answer.number());
    is_common(&[0, 2, 3, 4, 5, 6, 10, 11, 12, 13], 20, numbers);
    let large = |case: &&Search| case.judge().is_ok_and(|room| room.cells() > 4_096);
    assert!(stored.iter().map(|(case, _)| case).filter(large).count() >= 10);
}

#[test]
fn stored_sheets() {
    let stored = agreed(&SHEETS, sheets(), Sheet::plain_answer);
    let numbers = stored.iter().map(|(_, answer)| answer.number());
    let due = [0, 1, 2, 3, 4, 5, 6, 7, 8, 9, 13, 14, 15];
    is_common(&due, 5, numbers);
    for length in [MOST_BYTES, MOST_BYTES + 1] {
        assert!(stored.iter().any(|(case, _)| case.bytes.len() == length));
    }
    let well_formed = |case: &Sheet| case.judge(MOST_CELLS).is_ok();
    let several = |answer: &TreeAnswer| matches!(answer, TreeAnswer::Tree { branches, .. } if branches.len() >= 2);
    let well_formed = stored.iter().filter(|(case, _)| well_formed(case)).count();
    let several = stored.iter().filter(|(_, answer)| several(answer)).count();
    assert!(3 * several >= well_formed, "{several} of {well_formed}");
}

#[test]
fn stored_limit_sheets() {
    let stored = agreed(&LIMIT_SHEETS, limit_sheets(), LimitSheet::plain_answer);
    let numbers = stored.iter().map(|(_, answer)| answer.number());
    is_common(&[0, 1, 2, 3, 4, 5, 6, 7, 8, 9, 13, 14, 15], 3, numbers);
    let accepted = |version: Version| {
        let jobs = stored.iter().map(|(case, _)| case.0.judge(MOST_CELLS));
        jobs.filter(|job| job.as_ref().is_ok_and(|(job, _)| job.version == version))
            .count()
    };
    let counts = [Version::ONE, Version::TWO].map(accepted);
    assert!(counts[0] >= 50 && counts[1] >= 200, "{counts:?}");
    // at 12 and 8 many of them would have other repeaters
    let another = |(case, answer): &&(LimitSheet, TreeAnswer)| {
        let Ok((mut job, _)) = case.0.judge(MOST_CELLS) else {
            return false;
        };
        job.version = Version::ONE;
        let bytes = job.bytes();
        Sheet {
            bytes,
            ..case.0.clone()
        }
        .plain_answer()
            != *answer
    };
    let apart = stored.iter().filter(another).count();
    assert!(apart >= 60, "{apart}");
}

#[test]
fn stored_strict_sheets() {
    let stored = agreed(&STRICT_SHEETS, strict_sheets(), StrictSheet::plain_answer);
    let numbers = stored.iter().map(|(_, answer)| answer.number());
    let due = [0, 1, 2, 3, 4, 5, 6, 7, 8, 9, 13, 14, 15];
    is_common(&due, 3, numbers);
    let another = |(case, answer): &&(StrictSheet, TreeAnswer)| case.0.plain_answer() != *answer;
    let apart = stored.iter().filter(another).count();
    assert!(apart >= 20, "{apart}");
}

#[test]
fn stored_whys() {
    let stored = agreed(&WHYS, whys(), Why::plain_answer);
    let numbers = stored.iter().map(|(_, answer)| answer.number());
    is_common(&[0, 2, 3, 4, 5, 6, 10, 12, 13], 5, numbers.clone());
    is_common(&[11], 100, numbers);
}

#[test]
fn stored_tree_whys() {
    let stored = agreed(&TREE_WHYS, tree_whys(), TreeWhy::plain_answer);
    let answers = || stored.iter().map(|(_, answer)| answer);
    let numbers = || answers().map(TreeWhyAnswer::number);
    is_common(&[0, 1, 2, 3, 4, 5, 6, 7, 8, 9, 13], 3, numbers());
    is_common(&[14], 200, numbers());
    is_common(&[1, 2, 3, 4], 15, answers().map(TreeWhyAnswer::verdict));
}

#[test]
fn stored_functions() {
    let stored = agreed(&FUNCTIONS, functions(), Function::plain_answer);
    let written = |case: &Function| matches!(case, Function::Write(_));
    let numbers = |asked: bool| {
        let cases = stored
            .iter()
            .filter(move |(case, _)| written(case) == asked);
        cases.map(|(_, answer)| answer.number())
    };
    is_common(&[0, 2, 5, 6, 18], 5, numbers(true));
    is_common(&[0, 2, 6, 19], 5, numbers(false));
    is_common(&[0], 80, numbers(true));
    is_common(&[19], 80, numbers(false));
}

#[test]
fn stored_writes() {
    let stored = agreed(&WRITES, writes(), Parts::plain_answer);
    let numbers = || stored.iter().map(|(_, answer)| answer.number());
    is_common(&[1, 2, 3, 4, 5, 6], 5, numbers());
    is_common(&[0], 200, numbers());
}

#[test]
fn stored_plans() {
    let stored = agreed(&PLANS, plans(), Plan::plain_answer);
    let numbers = || stored.iter().map(|(_, answer)| answer.number());
    is_common(&[2, 3, 4, 5, 6, 8, 9], 5, numbers());
    is_common(&[0], 300, numbers());
    let several =
        |answer: &PlanAnswer| matches!(answer, PlanAnswer::Repeaters(cells) if cells.len() >= 2);
    let several = stored.iter().filter(|(_, answer)| several(answer));
    assert!(several.count() >= 30);
}

#[test]
fn stored_lists() {
    let stored = agreed(&LISTS, lists(), List::plain_answer);
    let numbers = || stored.iter().map(|(_, answer)| answer.number());
    let due = [0, 1, 2, 3, 4, 5, 6, 7, 8, 9, 13, 14, 15, 16];
    is_common(&due, 3, numbers());
    is_common(&[0], 80, numbers());
    let counts = stored.iter().filter_map(|(_, answer)| match answer {
        ListAnswer::Nets(laid) => Some(laid.nets.len() as u8),
        ListAnswer::Refused(_) => None,
    });
    is_common(&[1, 2, 3, 4, 5, 6, 7, 8], 3, counts);
}

#[test]
fn stored_drawings() {
    let stored = agreed(&DRAWINGS, drawings(), Drawing::plain_answer);
    for numbers in [
        |answer: &DrawingAnswer| answer.laid,
        |answer: &DrawingAnswer| answer.listed,
    ] {
        is_common(
            &[0, 2, 4, 5, 6],
            5,
            stored.iter().map(|(_, answer)| numbers(answer)),
        );
    }
    let several = stored
        .iter()
        .filter(|(_, answer)| answer.repeaters.len() >= 2);
    assert!(several.count() >= 20);
}
