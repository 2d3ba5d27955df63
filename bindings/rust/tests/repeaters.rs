//! Repeaters in one call: every stored net over lent memory with rubbish in it, a row through the safe call, a tree's own repeaters, and
//! refusals.

use cases::answers::PLANS;
use cases::files;
use cases::plan::Plan;
use checks::plan_fault;
use dustroute::{Config, Endpoint, Facing, Job, Port, Position, Refusal, Room, Sink, place_repeaters, route_tree};

const ROW: Room = Room {
    wide: 10,
    high: 1,
    deep: 1,
};

fn wire(x: u16) -> Endpoint {
    Endpoint {
        at: Position { x, y: 0, z: 0 },
        port: Port::Wire,
        facing: Facing::None,
    }
}

fn sink(x: u16, tail: u8) -> Sink {
    Sink { end: wire(x), tail }
}

#[test]
fn stored_plans() {
    let stored = files::read::<Plan>(&PLANS.bytes()).unwrap();
    assert!(stored.len() > 500);
    for (index, (case, due)) in stored.into_iter().enumerate() {
        let due = due.unwrap();
        for (byte, longer) in [(0xA5, 0), (0x5A, 3)] {
            assert_eq!(plan_fault(&case, &due, byte, longer), None, "plan {index}");
        }
    }
}

/// The runs, the tails, both, and a sink that no branch joins.
#[test]
fn a_row() {
    let all: Vec<u32> = (0..10).collect();
    for (run, tail, cells) in [(15, 15, &[][..]), (4, 15, &[5]), (15, 4, &[5]), (4, 3, &[5, 7])] {
        assert_eq!(
            place_repeaters(ROW, run, &wire(0), &[sink(9, tail)], &[all.clone()]).unwrap(),
            cells
        );
    }
    let apart = [all[..5].to_vec(), all[6..].to_vec()];
    assert_eq!(place_repeaters(ROW, 1, &wire(0), &[sink(9, 1)], &apart), Ok(vec![]));
}

/// The call over a tree's branches gives the tree's repeaters.
#[test]
fn a_tree_has_the_same() {
    let mut job = Job::new(ROW, Config::default(), wire(0), vec![sink(9, 3), sink(6, 2)]);
    job.run = 4;
    let tree = route_tree(&job.sheet().unwrap()).unwrap();
    assert!(!tree.repeaters.is_empty());
    assert_eq!(
        place_repeaters(ROW, job.run, &job.source, &job.sinks, &tree.branches),
        Ok(tree.repeaters)
    );
}

#[test]
fn refused() {
    let way = [vec![0, 1, 2]];
    let at = |room, run, x, tail, way: &[Vec<u32>]| place_repeaters(room, run, &wire(0), &[sink(x, tail)], way);
    assert_eq!(at(Room { wide: 0, ..ROW }, 0, 99, 0, &way), Err(Refusal::Sides));
    assert_eq!(at(ROW, 0, 99, 0, &way), Err(Refusal::Config));
    assert_eq!(at(ROW, 1, 99, 0, &way), Err(Refusal::Position));
    assert_eq!(at(ROW, 1, 9, 16, &way), Err(Refusal::Config));
    assert_eq!(at(ROW, 1, 9, 8, &[vec![0, 2]]), Err(Refusal::Position));
    assert_eq!(at(ROW, 1, 9, 8, &vec![vec![0, 1]; 17]), Err(Refusal::Buffer));
}
