//! Repeaters in one call, by the plain planning: the examples, and what holds of any.

use std::collections::{BTreeMap, BTreeSet};

use cases::examples;
use cases::generate::{Profile, plans};
use cases::plan::{Plan, PlanAnswer};
use cases::tree::realize;

#[test]
fn examples_of_plans() {
    for (place, (name, case, answer)) in examples::plans().into_iter().enumerate() {
        assert_eq!(case.plain_answer(), answer, "{place}: {name}");
    }
}

fn some_plans() -> impl Iterator<Item = Plan> {
    plans(51, 6_000, Profile::Tiny)
        .into_iter()
        .chain(plans(52, 3_000, Profile::Small))
}

/// Every number comes, and many nets have repeaters.
#[test]
fn all_sorts() {
    let mut numbers = BTreeMap::new();
    let mut with_repeaters = 0;
    for case in some_plans() {
        let answer = case.plain_answer();
        *numbers.entry(answer.number()).or_insert(0) += 1;
        with_repeaters +=
            usize::from(matches!(answer, PlanAnswer::Repeaters(cells) if !cells.is_empty()));
    }
    for number in [2, 3, 4, 5, 6, 8, 9] {
        assert!(numbers[&number] >= 15, "{numbers:?}");
    }
    assert!(with_repeaters >= 900, "{with_repeaters} {numbers:?}");
}

/// A repeater stands between exactly two neighbours over all branches, opposite each other, off terminals and approaches: of any branches.
#[test]
fn where_repeaters_stand() {
    for case in some_plans() {
        let PlanAnswer::Repeaters(repeaters) = case.plain_answer() else {
            continue;
        };
        let planned = case.judge().expect("it has an answer");
        let own = realize(&planned.job, &planned.room)
            .expect("it has an answer")
            .own();
        for cell in repeaters.into_iter().map(usize::from) {
            let steps = planned.branches.iter().flat_map(|branch| branch.windows(2));
            let beside: BTreeSet<usize> = steps
                .filter(|step| step.contains(&cell))
                .map(|step| if step[0] == cell { step[1] } else { step[0] })
                .collect();
            let places: Vec<_> = beside
                .iter()
                .map(|next| planned.room.place(*next))
                .collect();
            let at = planned.room.place(cell);
            assert_eq!(places.len(), 2, "{case:?}");
            assert!(places.iter().all(|place| place.y == at.y), "{case:?}");
            let middle = [places[0].x + places[1].x, places[0].z + places[1].z];
            assert_eq!(middle, [2 * at.x, 2 * at.z], "{case:?}");
            assert!(!own.contains(&cell), "{case:?}");
        }
    }
}

/// Order, direction and repeats of branches change nothing.
#[test]
fn branches_are_a_set_of_steps() {
    for case in some_plans() {
        let Ok(planned) = case.judge() else { continue };
        let mut branches = planned.branches.clone();
        branches.reverse();
        branches.iter_mut().for_each(|branch| branch.reverse());
        if branches.len() < 16 {
            branches.extend(planned.branches.first().cloned());
        }
        let other = Plan::of(&planned.job, &planned.room, &branches);
        assert_eq!(other.plain_answer(), case.plain_answer(), "{case:?}");
    }
}
