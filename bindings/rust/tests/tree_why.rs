//! Why a sink wasn't reached: each verdict, memory that is too short, and the stored answers, of which each byte counts.

use cases::answers::TREE_WHYS;
use cases::tree_why::{TreeWhy as Case, TreeWhyAnswer};
use cases::{examples, files, tree};
use checks::{dirty_tree_why, tree_why_due};
use dustroute::lent::{TreeMemory, TreeWhyMemory};
use dustroute::{
    Block, Cause, Config, Endpoint, Facing, Job, Kind, Mode, Nodes, Port, Position, Reason, Refusal, Room, Sheet, ShutIn, TreeWhy,
    Unreached, Verdict, route_tree_in, why_tree,
};

fn at(x: u16, y: u16, z: u16) -> Position {
    Position { x, y, z }
}

fn wire(at: Position) -> Endpoint {
    Endpoint {
        at,
        port: Port::Wire,
        facing: Facing::None,
    }
}

/// A row along z, from its first cell to its last.
fn row(deep: u16) -> Job {
    let room = Room { wide: 1, high: 1, deep };
    Job::new(room, Config::default(), wire(at(0, 0, 0)), vec![wire(at(0, 0, deep - 1))])
}

fn block(at: Position, kind: Kind) -> Block {
    Block {
        node: 0,
        at,
        kind,
        facing: Facing::None,
    }
}

fn unreached(job: &Job, mode: Mode) -> Unreached {
    match why_tree(mode, &job.sheet().unwrap()) {
        TreeWhy::Unreached(unreached) => unreached,
        other => panic!("{other:?}"),
    }
}

fn shut_in(unreached: Unreached) -> ShutIn {
    match unreached.verdict {
        Verdict::ShutIn(told) => told,
        other => panic!("{other:?}"),
    }
}

#[test]
fn a_reserved_cell_in_the_way() {
    let mut job = row(5);
    job.reserved.push(at(0, 0, 2));
    for mode in [Mode::Published, Mode::Strict] {
        let found = unreached(&job, mode);
        assert_eq!((found.sink, found.refusal), (1, Refusal::NoGoal { approach: 4 }));
        assert_eq!(found.verdict.number(), 2);
        let told = shut_in(found);
        assert_eq!(told.reached().collect::<Vec<_>>(), [3, 4]);
        assert!(told.is_reached(3) && !told.is_reached(2) && !told.is_reached(5));
        assert_eq!((told.reason(3, 7), told.reason(3, 10)), (None, Some(Reason::KeptFree)));
        assert_eq!(told.walls().filter(|wall| wall.to.is_some()).count(), 1);
        assert_eq!(told.causes(2).collect::<Vec<_>>(), [Cause::Reserved]);
        assert_eq!(told.causes(1).chain(told.causes(99)).count(), 0);
    }
}

#[test]
fn another_nets_wire_beneath_in_strict_mode() {
    let room = Room { wide: 1, high: 2, deep: 3 };
    let mut job = Job::new(room, Config::default(), wire(at(0, 1, 0)), vec![wire(at(0, 1, 2))]);
    job.conductors.push(at(0, 0, 1));
    let told = shut_in(unreached(&job, Mode::Strict));
    assert_eq!(
        (told.reason(5, 9), told.reason(5, 10)),
        (Some(Reason::KeptFree), Some(Reason::SupportKeptFree))
    );
    assert_eq!(told.causes(1).collect::<Vec<_>>(), [Cause::OtherConductor]);
    let sheet = job.sheet().unwrap();
    let tree = route_tree_in(Mode::Published, &sheet).unwrap();
    assert_eq!(why_tree(Mode::Published, &sheet), TreeWhy::Tree(tree));
}

#[test]
fn the_other_verdicts() {
    let mut taken = row(3);
    taken.blocks.push(block(at(0, 0, 2), Kind::Lever));
    assert_eq!(unreached(&taken, Mode::Published).verdict, Verdict::ApproachTaken);
    let room = Room { wide: 2, high: 3, deep: 2 };
    let tower = Job::new(room, Config::default(), wire(at(0, 0, 0)), vec![wire(at(0, 2, 0))]);
    assert_eq!(unreached(&tower, Mode::Published).verdict, Verdict::Conflicts);
    let mut limited = row(3);
    limited.config.limit = 0;
    let cut = unreached(&limited, Mode::Published);
    assert_eq!((cut.verdict.number(), cut.refusal), (4, Refusal::NoGoal { approach: 2 }));
}

#[test]
fn a_queue_too_short_and_other_refusals() {
    let room = Room { wide: 3, high: 1, deep: 3 };
    let job = Job::new(room, Config::default(), wire(at(0, 0, 0)), vec![wire(at(1, 0, 1))]);
    let sheet = job.sheet().unwrap();
    let mut memory = TreeWhyMemory::new(TreeMemory::new(9, 4, 90), 9);
    let cut = Unreached {
        sink: 1,
        refusal: Refusal::QueueFull(Nodes(2)),
        verdict: Verdict::CutShort,
    };
    assert_eq!(memory.why_tree(Mode::Published, &sheet), TreeWhy::Unreached(cut));
    memory.causes.pop();
    assert_eq!(memory.why_tree(Mode::Published, &sheet), TreeWhy::Refused(Refusal::Buffer));
    let noise = Sheet::from_bytes(vec![7; 9]);
    assert_eq!(why_tree(Mode::Strict, &noise), TreeWhy::Refused(Refusal::Sheet));
}

/// The number that stands for a case's mode.
fn strict(case: &Case) -> u32 {
    u32::from(case.mode == tree::Mode::Strict)
}

/// Whether a case is answered so: the number, and every byte of lent memory.
fn is_answered_so(case: &Case, answer: &TreeWhyAnswer, longer: usize) -> bool {
    let [lent, queue, branch] = [case.sheet.lent, case.sheet.queue, case.sheet.branch].map(|length| length as usize);
    let [reached, walls, causes] = [case.reached, case.walls, case.causes].map(|length| vec![0; length as usize + longer]);
    let cells = case.judge().map_or(0, |(_, room)| room.cells());
    if !is_possible(answer, cells, branch) {
        return false;
    }
    let memory = TreeWhyMemory {
        reached,
        walls,
        causes,
        ..TreeWhyMemory::new(TreeMemory::new(lent + longer, queue, branch), 0)
    };
    let before = dirty_tree_why(memory, 0x5A);
    let mut after = before.clone();
    let number = after.call(strict(case), &case.sheet.bytes);
    number == u32::from(answer.number()) && after == tree_why_due(&before, case, cells, answer)
}

/// Whether an answer fits its room, and what it lists ascends.
fn is_possible(answer: &TreeWhyAnswer, cells: usize, branch: usize) -> bool {
    let mut listed = Vec::new();
    if let cases::sheet::TreeAnswer::Tree { branches, repeaters, .. } = &answer.tree {
        if branches.len() > Sheet::MAX_SINKS || branches.concat().len() > branch || !repeaters.is_sorted_by(|one, other| one < other) {
            return false;
        }
        listed.extend(branches.concat().into_iter().chain(repeaters.clone()));
    }
    if let Some(reason) = &answer.reason {
        let reached: Vec<u16> = reason.reached.iter().map(|told| told.cell).collect();
        let causes: Vec<u16> = reason.causes.iter().map(|(cell, _)| *cell).collect();
        let ascend = |cells: &[u16]| cells.is_sorted_by(|one, other| one < other);
        if !ascend(&reached) || !ascend(&causes) || reason.causes.iter().any(|(_, bits)| *bits == 0) {
            return false;
        }
        listed.extend(reached.into_iter().chain(causes));
    }
    listed.iter().all(|cell| usize::from(*cell) < cells)
}

#[test]
fn examples_of_tree_whys() {
    for (name, case, answer) in examples::tree_whys() {
        assert!(is_answered_so(&case, &answer, 0), "{name}");
    }
}

type Stored = Vec<(Case, TreeWhyAnswer)>;

fn stored() -> Stored {
    let cases = files::read::<Case>(&TREE_WHYS.bytes()).unwrap();
    cases.into_iter().map(|(case, answer)| (case, answer.unwrap())).collect()
}

#[test]
fn stored_tree_whys() {
    let stored = stored();
    assert!(stored.len() > 500, "{}", stored.len());
    for (index, (case, answer)) in stored.into_iter().enumerate() {
        assert!(is_answered_so(&case, &answer, 0), "sheet {index}");
        // longer memory may suffice where 6 was due
        if answer.number() != 6 {
            assert!(is_answered_so(&case, &answer, 3), "sheet {index}, longer");
        }
    }
}

/// Each byte of a stored answer counts: with any one changed, the file is no such file, or the replay says no.
#[test]
fn a_changed_byte_of_a_stored_answer_is_seen() {
    let small = |(case, _): &(Case, TreeWhyAnswer)| case.sheet.lent <= 64 && case.sheet.bytes.len() <= 1_000;
    let mut changed = 0;
    for (index, (case, answer)) in stored().into_iter().filter(small).enumerate() {
        let bare = files::write_bare(std::slice::from_ref(&case)).len();
        let bytes = files::write_answered(&[(case, answer)]);
        for place in bare..bytes.len() {
            let mut bytes = bytes.clone();
            bytes[place] ^= 1 << ((index + place) % 8);
            let seen = match files::read::<Case>(&bytes).as_deref() {
                Ok([(case, Some(answer))]) => !is_answered_so(case, answer, 0),
                _ => true,
            };
            assert!(seen, "byte {place} of sheet {index}");
            changed += 1;
        }
    }
    assert!(changed > 5_000, "{changed}");
}
