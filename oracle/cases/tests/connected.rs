//! The whole net hangs together: the claims hold of trees, each is seen to fail of a tree that breaks it, and what is not
//! claimed is false.

use cases::connected::{Answered, CLAIMS};
use cases::generate::{Profile, sheets};
use cases::room::{MOST_CELLS, Room, facing};
use cases::samples::{default_job, wire};
use cases::sheet::Job;
use cases::tree::{Limits, route_net_tree};

fn answered(job: &Job, room: &Room) -> Option<Answered> {
    let net = route_net_tree(job, room, Limits::NONE).ok()?;
    Answered::new(job, room, net.branches, net.occupied, net.repeaters)
}

fn tree_of(job: &Job) -> Answered {
    let room = job.judge(MOST_CELLS).unwrap();
    answered(job, &room).expect("a tree")
}

/// Two branches in a line of twenty cells, of the second sink 0 to 15, of the first 14 to 19, with a repeater at 13.
fn line() -> Answered {
    let sink = |x| wire([x, 0, 0], facing::NONE);
    let tree = tree_of(&default_job([20, 1, 1], &[sink(19), sink(15)]));
    assert!(tree.repeaters.contains(&13), "{tree:?}");
    tree
}

#[test]
fn claims_hold_of_random_trees() {
    let mut trees = 0;
    for sheet in sheets(11, 400, Profile::Small) {
        let Ok((job, room)) = sheet.judge(MOST_CELLS) else {
            continue;
        };
        if let Some(tree) = answered(&job, &room) {
            trees += 1;
            assert_eq!(tree.broken(), [""; 0], "{tree:?}");
        }
    }
    assert!(trees >= 200, "{trees} trees");
}

/// A claim by its place, and a change to the line after which it does not hold.
type Break = (usize, fn(&mut Answered));

const BREAKS: [Break; 14] = [
    // occupied, but on no branch; on a branch, but not occupied
    (0, |tree| tree.branches[0].truncate(4)),
    (0, |tree| assert!(tree.occupied.remove(&7))),
    // 17 to 19 stand loose
    (1, |tree| drop(tree.branches[0].drain(..3))),
    (2, |tree| drop(tree.branches[0].drain(..3))),
    (3, |tree| drop(tree.branches[0].drain(..3))),
    (4, |tree| tree.branches[0].swap(1, 4)),
    // the second sink's turn is the first
    (5, |tree| tree.branches[1].insert(0, 18)),
    (6, |tree| tree.branches[0].reverse()),
    (7, |tree| assert!(tree.repeaters.insert(15))),
    (7, |tree| assert!(tree.occupied.remove(&13))),
    // three neighbours; one; two that are not opposite
    (8, |tree| tree.branches[1].push(13)),
    (8, |tree| assert!(tree.repeaters.insert(0))),
    (8, |tree| tree.branches[1][12] = 2),
    // the source has no parent
    (9, |tree| tree.ends.source = 13),
];

#[test]
fn each_claim_can_fail() {
    assert_eq!(line().broken(), [""; 0]);
    for (place, change) in BREAKS {
        let mut tree = line();
        change(&mut tree);
        let words = CLAIMS[place].words;
        assert!(tree.broken().contains(&words), "still holds: {words}");
    }
    for place in 0..CLAIMS.len() {
        assert!(BREAKS.iter().any(|(broken, _)| *broken == place));
    }
}

/// Branches may meet again, so it is not claimed that there is no ring.
#[test]
fn branches_may_make_a_ring() {
    let sink = |facing| wire([0, 0, 1], facing);
    let mut job = default_job([2, 1, 2], &[sink(facing::NORTH), sink(facing::NONE)]);
    job.source = wire([1, 0, 1], facing::NONE);
    let tree = tree_of(&job);
    assert_eq!(tree.branches, [vec![3, 2, 0, 1], vec![3, 1]]);
    assert!(tree.has_ring());
    assert_eq!(tree.broken(), [""; 0]);
    assert!(!line().has_ring());
}

/// A branch may have V + 1 cells, one of them twice, so it is not claimed that the path is the branch.
#[test]
fn a_branch_may_come_back() {
    let tree = tree_of(&default_job([2, 1, 1], &[wire([0, 0, 0], facing::EAST)]));
    assert_eq!(tree.branches, [vec![0, 1, 0]]);
    assert_eq!(tree.broken(), [""; 0]);
}
