//! One route drawn: every stored drawing over lent memory with rubbish in it, the smallest inputs through the safe calls, and each refusal.

use cases::answers::DRAWINGS;
use cases::drawing::Drawing;
use cases::files;
use checks::drawing_fault;
use dustroute::{Facing, Kind, Refusal, Repeater, Room, insert_repeaters, materialize_route};

#[test]
fn stored_drawings() {
    let stored = files::read::<Drawing>(&DRAWINGS.bytes()).unwrap();
    assert!(stored.len() > 400);
    for (index, (case, due)) in stored.into_iter().enumerate() {
        let due = due.unwrap();
        for (byte, longer) in [(0xA5, 0), (0x5A, 3)] {
            assert_eq!(drawing_fault(&case, &due, byte, longer), None, "drawing {index}");
        }
    }
}

/// A support lands on a later cell of the path, which then gets no wire.
#[test]
fn a_support_on_the_path() {
    let room = Room { wide: 2, high: 2, deep: 1 };
    let mut kinds = [0; 4];
    assert_eq!(materialize_route(room, Kind::Solid, &mut kinds, &[1, 2, 0]), Ok(()));
    assert_eq!(kinds, [1, 3, 3, 0]);
}

#[test]
fn repeaters_of_a_row() {
    let room = Room { wide: 5, high: 1, deep: 1 };
    let path = [0, 1, 2, 3, 4];
    let mut kinds = [3; 5];
    let middle = Repeater {
        cell: 2,
        facing: Facing::East,
    };
    assert_eq!(insert_repeaters(room, 2, &mut kinds, &path), Ok(vec![middle]));
    assert_eq!(kinds, [3, 3, 5, 3, 3]);
    assert_eq!(insert_repeaters(room, 4, &mut kinds, &path), Ok(vec![]));
}

/// 2, 6, 5, 4, and the kinds stay.
#[test]
fn refused() {
    let room = |wide| Room { wide, high: 1, deep: 1 };
    for (due, wide, mut kinds, path) in [
        (Refusal::Sides, 0, vec![13], [9]),
        (Refusal::Buffer, 3, vec![13, 0], [9]),
        (Refusal::Code, 3, vec![13, 0, 0], [9]),
        (Refusal::Position, 3, vec![0, 0, 0], [3]),
    ] {
        let before = kinds.clone();
        assert_eq!(materialize_route(room(wide), Kind::Solid, &mut kinds, &path), Err(due));
        assert_eq!(insert_repeaters(room(wide), 1, &mut kinds, &path), Err(due));
        assert_eq!(kinds, before);
    }
}
