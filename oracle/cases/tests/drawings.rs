//! Routes drawn by the plain drawing: the examples, and what holds of any.

use cases::drawing::Drawing;
use cases::examples;
use cases::generate::{Profile, drawings};
use cases::room::{DOWN, kind};

#[test]
fn examples_of_drawings() {
    for (name, case, answer) in examples::drawings() {
        assert_eq!(case.plain_answer(), answer, "{name}");
    }
}

fn some_drawings() -> impl Iterator<Item = Drawing> {
    drawings(41, 4_000, Profile::Tiny)
        .into_iter()
        .chain(drawings(42, 1_000, Profile::Small))
}

/// Only the path's cells and those right beneath them change, and of these only Air; a repeater stands on the path.
#[test]
fn only_named_cells_change() {
    for case in some_drawings() {
        let answer = case.plain_answer();
        let Ok(room) = case.judge_laying() else {
            assert_eq!(answer.kinds, case.kinds);
            continue;
        };
        let path: Vec<usize> = case.path.iter().map(|cell| *cell as usize).collect();
        let named = |cell: usize| {
            path.iter()
                .any(|at| *at == cell || room.next(*at, DOWN) == Some(cell))
        };
        for cell in 0..room.cells() {
            let [before, laid, last] = [
                case.kinds[cell],
                answer.kinds[cell],
                answer.repeatered[cell],
            ];
            assert!(
                before == laid || before == kind::AIR && named(cell),
                "{case:?}"
            );
            assert!(
                laid == last || last == kind::REPEATER && path.contains(&cell),
                "{case:?}"
            );
        }
    }
}

/// A limit of 0 is one of 1.
#[test]
fn no_limit() {
    for case in some_drawings() {
        let at = |run| {
            Drawing {
                run,
                ..case.clone()
            }
            .plain_answer()
        };
        assert_eq!(at(0), at(1));
    }
}
