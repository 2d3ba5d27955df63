//! Both modes of a tree: the examples, and the stored sheets in strict mode, with all lent memory.

use cases::answers::STRICT_SHEETS;
use cases::examples;
use cases::files;
use cases::sheet::TreeAnswer;
use cases::strict::StrictSheet;
use checks::{dirty_tree, tree_due};
use dustroute::lent::TreeMemory;
use dustroute::{Config, Endpoint, Facing, Job, Mode, Port, Position, Refusal, Room, Sheet, Tree, route_tree, route_tree_in};

fn at(x: u16, y: u16, z: u16) -> Position {
    Position { x, y, z }
}

fn wire(at: Position) -> Endpoint {
    Endpoint {
        at,
        port: Port::Wire,
        facing: Facing::None,
    }
}

fn sheet_of(room: Room, [source, sink, other]: [Position; 3]) -> Sheet {
    let mut job = Job::new(room, Config::default(), wire(source), vec![wire(sink)]);
    job.conductors.push(other);
    job.sheet().unwrap()
}

fn branch(cells: &[u32]) -> Result<Tree, Refusal> {
    Ok(Tree {
        branches: vec![cells.to_vec()],
        occupied: cells.to_vec(),
        repeaters: Vec::new(),
    })
}

/// Over another net's wire: the published mode rests on it, strict mode doesn't; at the net's own ends both do.
#[test]
fn wire_over_another_net() {
    let deep = |deep| Room { wide: 1, high: 2, deep };
    let long = sheet_of(deep(3), [at(0, 1, 0), at(0, 1, 2), at(0, 0, 1)]);
    assert_eq!(route_tree_in(Mode::Published, &long), branch(&[3, 4, 5]));
    assert_eq!(route_tree_in(Mode::Strict, &long), Err(Refusal::NoGoal { approach: 5 }));
    let ends = sheet_of(deep(2), [at(0, 1, 0), at(0, 1, 1), at(0, 0, 1)]);
    for mode in [Mode::Published, Mode::Strict] {
        assert_eq!(route_tree_in(mode, &ends), branch(&[2, 3]));
    }
    assert_eq!(Mode::default(), Mode::Published);
}

#[test]
fn a_tree_in_strict_mode_alone() {
    let room = Room { wide: 2, high: 3, deep: 2 };
    let job = Job::new(room, Config::default(), wire(at(0, 0, 0)), vec![wire(at(1, 2, 0))]);
    let sheet = job.sheet().unwrap();
    let none = Err(Refusal::NoGoal { approach: 10 });
    assert_eq!((route_tree(&sheet), route_tree_in(Mode::Published, &sheet)), (none.clone(), none));
    let strict = route_tree_in(Mode::Strict, &sheet).unwrap();
    assert_eq!((strict.branches, strict.occupied), (vec![vec![0, 1, 9, 10]], vec![0, 1, 9, 10]));
}

/// Whether a case is answered so in the mode that a number stands for: the number, and every byte of lent memory.
fn is_answered_so(case: &cases::sheet::Sheet, answer: &TreeAnswer, strict: u32, longer: usize) -> bool {
    let [cells, queue, branch] = [case.lent, case.queue, case.branch].map(|length| length as usize);
    if !is_possible(answer, cells, branch) {
        return false;
    }
    let before = dirty_tree(TreeMemory::new(cells + longer, queue, branch), 0x5A);
    let mut after = before.clone();
    let number = after.call_mode(strict, &case.bytes);
    number == u32::from(answer.number()) && after == tree_due(&before, case, answer)
}

/// Whether an answer fits the buffers of its case, and its repeaters ascend.
fn is_possible(answer: &TreeAnswer, lent: usize, branch: usize) -> bool {
    let TreeAnswer::Tree { branches, repeaters, .. } = answer else {
        return true;
    };
    let cells = branches.concat();
    let inside = cells.iter().chain(repeaters).all(|cell| usize::from(*cell) < lent);
    branches.len() <= Sheet::MAX_SINKS && cells.len() <= branch && inside && repeaters.is_sorted_by(|one, other| one < other)
}

#[test]
fn examples_in_both_modes() {
    for (name, case, published, strict) in examples::modes() {
        assert!(is_answered_so(&case, &published, 0, 0), "{name}");
        for number in [1, 2, 0x100, u32::MAX] {
            assert!(is_answered_so(&case, &strict, number, 3), "{name}, {number}");
        }
    }
}

type Stored = Vec<(StrictSheet, TreeAnswer)>;

fn stored() -> Stored {
    let cases = files::read::<StrictSheet>(&STRICT_SHEETS.bytes()).unwrap();
    cases.into_iter().map(|(case, answer)| (case, answer.unwrap())).collect()
}

#[test]
fn stored_strict_sheets() {
    let stored = stored();
    assert!(stored.len() > 400, "{}", stored.len());
    for (index, (StrictSheet(case), answer)) in stored.into_iter().enumerate() {
        assert!(is_answered_so(&case, &answer, 1, 0), "sheet {index}");
        // longer memory may suffice where 6 was due
        if answer.number() != 6 {
            assert!(is_answered_so(&case, &answer, u32::MAX, 3), "sheet {index}, longer");
        }
    }
}

/// Each byte of a stored answer counts: with any one changed, the file is no such file, or the replay says no.
#[test]
fn a_changed_byte_of_a_stored_answer_is_seen() {
    let small = |(case, _): &(StrictSheet, TreeAnswer)| case.0.lent <= 64 && case.0.bytes.len() <= 1_000;
    let mut changed = 0;
    for (index, (case, answer)) in stored().into_iter().filter(small).enumerate() {
        let bare = files::write_bare(std::slice::from_ref(&case)).len();
        let bytes = files::write_answered(&[(case, answer)]);
        for place in bare..bytes.len() {
            let mut bytes = bytes.clone();
            bytes[place] ^= 1 << ((index + place) % 8);
            let seen = match files::read::<StrictSheet>(&bytes).as_deref() {
                Ok([(case, Some(answer))]) => !is_answered_so(&case.0, answer, 1, 0),
                _ => true,
            };
            assert!(seen, "byte {place} of sheet {index}");
            changed += 1;
        }
    }
    assert!(changed > 2_000, "{changed}");
}
