//! Several nets: every stored list over lent memory with rubbish in it, too short in each buffer; the smallest lists that show a rule, through the
//! safe call; and that the memory it makes suffices.

use cases::answers::LISTS;
use cases::lists::{List, NetRefusal as DueRefusal};
use cases::nets::{LaidNets, ListAnswer};
use cases::{files, samples, tree};
use checks::{Short, nets_fault};
use dustroute::lent::{NETS_VALUES, NetsMemory};
use dustroute::{
    Block, Config, Endpoint, Facing, Job, Kind, Mode, NetRefusal, Nets, Port, Position, Refusal, Room, Sheet, Tree, route_nets, route_tree,
    write_function,
};

fn at(x: u16, y: u16, z: u16) -> Position {
    Position { x, y, z }
}

fn end(at: Position, port: Port, facing: Facing) -> Endpoint {
    Endpoint { at, port, facing }
}

fn wire(position: Position) -> Endpoint {
    end(position, Port::Wire, Facing::None)
}

fn room(wide: u16, high: u16, deep: u16) -> Room {
    Room { wide, high, deep }
}

/// A net from a cell to a sink, in an empty room.
fn net(room: Room, from: Position, sink: Endpoint) -> Job {
    Job::new(room, Config::default(), wire(from), vec![sink])
}

fn nets(mode: Mode, jobs: &[Job]) -> Result<Nets, NetRefusal> {
    let sheets: Vec<Sheet> = jobs.iter().map(|job| job.sheet().unwrap()).collect();
    route_nets(mode, &sheets)
}

fn kinds(jobs: &[Job]) -> Vec<u8> {
    nets(Mode::Published, jobs).unwrap().kinds
}

/// Sample l: its terminal is laid as a repeater that faces the block.
#[test]
fn sample_l() {
    let mut job = net(room(6, 1, 1), at(0, 0, 0), end(at(5, 0, 0), Port::BlockPower, Facing::West));
    job.blocks.push(Block {
        node: 0,
        at: at(5, 0, 0),
        kind: Kind::Solid,
        facing: Facing::None,
    });
    let laid = nets(Mode::Published, &[job.clone()]).unwrap();
    assert_eq!(laid.kinds, [3, 3, 3, 3, 5, 1]);
    assert_eq!(laid.facings, [0, 0, 0, 0, Facing::East as u8, 0]);
    assert_eq!(laid.owners, [Some(0), Some(0), Some(0), Some(0), Some(0), None]);
    assert_eq!(laid.nets, [route_tree(&job.sheet().unwrap()).unwrap()]);
    let text = write_function(job.room, &laid.kinds, &laid.facings).unwrap();
    let repeater = "setblock ~4 ~ ~ minecraft:repeater[facing=west] replace";
    assert_eq!(String::from_utf8(text).unwrap().lines().nth(4), Some(repeater));
}

/// The lower net's cells hold the upper one's supports; in the other order wire lies on wire.
#[test]
fn a_net_with_no_wire() {
    let upper = net(room(2, 2, 1), at(0, 1, 0), wire(at(1, 1, 0)));
    let lower = net(room(2, 2, 1), at(0, 0, 0), wire(at(1, 0, 0)));
    assert_eq!(kinds(&[upper.clone(), lower.clone()]), [2, 3, 2, 3]);
    assert_eq!(kinds(&[lower.clone(), upper.clone()]), [3, 3, 3, 3]);
    let laid = nets(Mode::Published, &[lower, upper]).unwrap();
    let one = |cells: &[u32]| Tree {
        branches: vec![cells.to_vec()],
        occupied: cells.to_vec(),
        repeaters: vec![],
    };
    assert_eq!(laid.nets, [one(&[0, 2]), one(&[1, 3])]);
    assert_eq!(laid.owners, [Some(0), Some(1), Some(0), Some(1)]);
}

/// A planned repeater faces along the path from the source.
#[test]
fn a_planned_repeater() {
    let laid = nets(Mode::Strict, &[net(room(13, 1, 1), at(12, 0, 0), wire(at(0, 0, 0)))]).unwrap();
    assert_eq!(laid.nets[0].repeaters, [8]);
    assert_eq!((laid.kinds[8], laid.facings[8]), (Kind::Repeater as u8, Facing::West as u8));
}

#[test]
fn refused() {
    let refused = |net, refusal| Err(NetRefusal { net, refusal });
    let alone = Job::new::<Endpoint>(room(1, 1, 1), Config::default(), wire(at(0, 0, 0)), vec![]);
    let found = nets(Mode::Published, &[alone.clone(), alone.clone()]);
    assert_eq!(found, refused(1, Refusal::NetOverlap { cell: 0 }));
    assert_eq!(
        found.unwrap_err().to_string(),
        "net 1: another net of the list lies in cell 0 already"
    );
    let low = room(1, 2, 3);
    let first = net(low, at(0, 0, 0), end(at(0, 1, 1), Port::Wire, Facing::South));
    let second = net(low, at(0, 1, 0), wire(at(0, 0, 1)));
    assert_eq!(nets(Mode::Published, &[first, second]), refused(1, Refusal::NetOverlap { cell: 1 }));
    assert_eq!(route_nets(Mode::Published, &[]), refused(0, Refusal::Sheet));
    let other = net(low, at(0, 0, 0), wire(at(0, 0, 2)));
    assert_eq!(nets(Mode::Published, &[alone, other]), refused(1, Refusal::Sheet));
    let row = room(9, 1, 1);
    let middle = net(row, at(4, 0, 0), wire(at(4, 0, 0)));
    let across = net(row, at(0, 0, 0), wire(at(8, 0, 0)));
    let blocked = Refusal::NoGoal { approach: 8 };
    assert_eq!(nets(Mode::Published, &[across.clone(), middle.clone()]), refused(0, blocked));
    assert_eq!(nets(Mode::Published, &[middle, across]), refused(1, blocked));
}

/// A list may be longer than any sheet: four nets on a floor of 2,500 blocks.
#[test]
fn a_long_list() {
    let floor = (0..50).flat_map(|x| (0..50).map(move |z| samples::block(1, [x, 0, z], Kind::Solid as u8)));
    let job = |k: u16| {
        let mut job = samples::default_job([50, 2, 50], &[samples::wire([9, 1, 12 * k + 3], 0)]);
        job.source.at = [2, 1, 12 * k];
        job.blocks = floor.clone().collect();
        job
    };
    let jobs: Vec<_> = (0..4).map(job).collect();
    let list = List::ample(tree::Mode::Published, &jobs);
    assert!(list.bytes.len() > 70_000);
    let due = list.plain_answer();
    assert_eq!(due.number(), 0);
    assert_eq!(nets_fault(&list, &due, 3, Short::Some), None);
    assert_eq!(answered(&list), due);
}

/// A list in one piece is the same as its sheets.
#[test]
fn one_piece() {
    let lower = net(room(2, 2, 1), at(0, 0, 0), wire(at(1, 0, 0))).sheet().unwrap();
    let upper = net(room(2, 2, 1), at(0, 1, 0), wire(at(1, 1, 0))).sheet().unwrap();
    let whole = Sheet::from_bytes([lower.bytes(), upper.bytes()].concat());
    assert_eq!(route_nets(Mode::Published, &[whole]), route_nets(Mode::Published, &[lower, upper]));
}

/// Memory is kept from call to call; with too few values there is no net to name.
#[test]
fn lent_memory() {
    let sheet = net(room(2, 1, 1), at(0, 0, 0), wire(at(1, 0, 0))).sheet().unwrap();
    let mut memory = NetsMemory::for_list(sheet.bytes());
    for _ in 0..2 {
        assert_eq!(memory.route_nets(Mode::Published, sheet.bytes()).unwrap().kinds, [3, 3]);
    }
    memory.values = vec![9; NETS_VALUES - 1];
    let refused = memory.route_nets(Mode::Published, sheet.bytes()).unwrap_err();
    assert_eq!((refused.net, refused.refusal), (0, Refusal::Buffer));
    assert_eq!(memory.values, [9, 9]);
}

fn stored() -> Vec<(List, ListAnswer)> {
    let cases = files::read::<List>(&LISTS.bytes()).unwrap();
    cases.into_iter().map(|(case, answer)| (case, answer.unwrap())).collect()
}

#[test]
fn stored_lists() {
    let stored = stored();
    assert!(stored.len() > 200, "{}", stored.len());
    for (index, (case, answer)) in (0..).zip(stored) {
        assert_eq!(nets_fault(&case, &answer, index, Short::All), None, "list {index}");
    }
}

/// Each byte of a stored answer counts: with any one changed, the file is no such file, or the replay says no.
#[test]
fn a_changed_byte_of_a_stored_answer_is_seen() {
    let small = |(case, _): &(List, ListAnswer)| case.lent <= 64 && case.bytes.len() <= 1_000;
    let mut changed = 0;
    for (index, (case, answer)) in stored().into_iter().filter(small).enumerate() {
        let bare = files::write_bare(std::slice::from_ref(&case)).len();
        let bytes = files::write_answered(&[(case, answer)]);
        for place in bare..bytes.len() {
            let mut bytes = bytes.clone();
            bytes[place] ^= 1 << ((index + place) % 8);
            let seen = match files::read::<List>(&bytes).as_deref() {
                Ok([(case, Some(answer))]) => nets_fault(case, answer, 0, Short::Some).is_some(),
                _ => true,
            };
            assert!(seen, "byte {place} of list {index}");
            changed += 1;
        }
    }
    assert!(changed > 2_000, "{changed}");
}

/// What the safe call makes of a list, as the plain side tells it.
fn answered(case: &List) -> ListAnswer {
    let mode = match case.mode {
        tree::Mode::Published => Mode::Published,
        tree::Mode::Strict => Mode::Strict,
    };
    let cells = |cells: &[u32]| -> Vec<u16> { cells.iter().map(|cell| *cell as u16).collect() };
    match route_nets(mode, &[Sheet::from_bytes(case.bytes.clone())]) {
        Err(NetRefusal { net, refusal }) => {
            let refusal = cases::Refusal::new(refusal.number() as u8, refusal.detail());
            ListAnswer::Refused(DueRefusal { net, refusal })
        }
        Ok(laid) => {
            let mut repeaters: Vec<u32> = laid.nets.iter().flat_map(|net| net.repeaters.clone()).collect();
            repeaters.sort_unstable();
            ListAnswer::Nets(LaidNets {
                nets: laid
                    .nets
                    .iter()
                    .map(|net| net.branches.iter().map(|branch| cells(branch)).collect())
                    .collect(),
                owners: laid.owners.iter().map(|owner| owner.map_or(0, |net| net as u32 + 1)).collect(),
                repeaters: cells(&repeaters),
                kinds: laid.kinds,
                facings: laid.facings,
            })
        }
    }
}

/// The safe call lends enough: neither 6 nor 13 nor 15 comes from it, whatever the bytes.
#[test]
fn memory_that_suffices() {
    for (index, (case, _)) in stored().into_iter().enumerate().step_by(3) {
        let unbounded = List {
            queue: u32::MAX,
            branch: u32::MAX,
            lengths: u32::MAX,
            lent: u32::MAX,
            ..case
        };
        let due = unbounded.plain_answer();
        assert!(!matches!(due.number(), 6 | 13 | 15));
        assert_eq!(answered(&unbounded), due, "list {index}");
    }
}
