//! Function files: the table and the bad lines, rooms out and back, and what a repeater faces by positions.

use std::collections::BTreeSet;

use cases::examples;
use cases::function::{Function, FunctionAnswer, LINE_BYTES, blocks, laid, line, state, text_of};
use cases::generate::{Profile, functions};
use cases::room::{MOST_CELLS, Place, Room, facing, kind};

#[test]
fn examples_of_functions() {
    for (name, case, answer) in examples::functions() {
        assert_eq!(case.plain_answer(), answer, "{name}");
    }
}

/// A signal runs from x to x + 1 through a repeater between them: in the game it faces west, where its input is.
#[test]
fn a_repeater_faces_its_input() {
    let from = Place::new(4, 0, 0);
    let to = Place::new(6, 0, 0);
    assert_eq!((to.x - from.x, to.z - from.z), (2, 0));
    assert_eq!(
        state(kind::REPEATER, facing::EAST).as_deref(),
        Some("repeater[facing=west]")
    );
    assert_eq!(
        state(kind::COMPARATOR, facing::EAST).as_deref(),
        Some("comparator[facing=west]")
    );
    // a torch on a wall points away from it, in both
    let torch = state(kind::REDSTONE_TORCH, facing::EAST);
    assert_eq!(torch.as_deref(), Some("redstone_wall_torch[facing=east]"));
}

#[test]
fn states_are_told_apart() {
    let states: BTreeSet<_> = blocks()
        .map(|(block, facing)| state(block, facing))
        .collect();
    assert_eq!((states.len(), blocks().count()), (35, 35));
    assert!(
        state(kind::REDSTONE_TORCH, 5).is_none()
            && state(kind::REPEATER, 0).is_none()
            && state(13, 0).is_none()
    );
}

#[test]
fn the_longest_line() {
    let lines =
        blocks().map(|(block, facing)| line(Place::new(63, 63, 63), block, facing).unwrap());
    assert_eq!(lines.map(|line| line.len()).max(), Some(LINE_BYTES));
}

#[test]
fn rooms_go_out_and_back() {
    let (mut rooms, mut texts) = (0, 0);
    for case in functions(5, 3_000, Profile::Tiny) {
        match (&case, case.plain_answer()) {
            (Function::Write(room), FunctionAnswer::Text(text)) => {
                let sides = Room::new(room.sides, MOST_CELLS).unwrap();
                let back = laid(&sides, &text).unwrap();
                assert_eq!((&back.kinds, &back.facings), (&room.kinds, &room.facings));
                rooms += 1;
            }
            // what is read is what would be written
            (Function::Read(read), FunctionAnswer::Room(laid)) => {
                let sides = Room::new(read.sides, MOST_CELLS).unwrap();
                assert_eq!(text_of(&sides, &laid.kinds, &laid.facings), read.text);
                texts += 1;
            }
            _ => {}
        }
    }
    assert!(rooms > 500 && texts > 200, "{rooms} {texts}");
}
