//! Damaged sheets and short memory. The plain router, which states docs/RULES.md a second time, says what is due.

use cases::sheet::TreeAnswer;
use checks::{dirty_search, dirty_tree, tree_due};
use dustroute::lent::{SearchMemory, TreeMemory};
use dustroute::{Block, Config, Endpoint, Facing, Job, Kind, Port, Position, Refusal, Room, Sheet, route_tree, search};

fn at(x: u16, y: u16, z: u16) -> Position {
    Position { x, y, z }
}

fn wire(at: Position) -> Endpoint {
    Endpoint {
        at,
        port: Port::Wire,
        facing: Facing::None,
    }
}

/// A small job with a record in every list.
fn small_job() -> Job {
    let room = Room { wide: 5, high: 2, deep: 3 };
    let mut job = Job::new(
        room,
        Config::default(),
        wire(at(0, 0, 1)),
        vec![wire(at(4, 0, 1)), wire(at(2, 0, 2))],
    );
    job.blocks.push(Block {
        node: 1,
        at: at(3, 0, 0),
        kind: Kind::Solid,
        facing: Facing::None,
    });
    job.conductors.push(at(4, 1, 0));
    job.clearances.push(at(0, 1, 0));
    job.terminals.push(at(1, 1, 0));
    job.reserved.push(at(2, 1, 0));
    job
}

fn small() -> Sheet {
    small_job().sheet().unwrap()
}

/// The sheet as a case, with memory that always suffices.
fn case(sheet: &Sheet) -> cases::sheet::Sheet {
    cases::sheet::Sheet {
        queue: 1 << 20,
        branch: 1 << 20,
        lent: 1 << 20,
        bytes: sheet.bytes().to_vec(),
    }
}

/// The number and detail of a sheet's answer. They and the memory are as the plain router's answer asks.
fn answered(sheet: &Sheet) -> (u32, u32) {
    let mut memory = dirty_tree(TreeMemory::for_sheet(sheet), 0x77);
    let before = memory.clone();
    let told = match memory.route_tree(sheet) {
        Ok(_) => (0, 0),
        Err(refusal) => (refusal.number(), refusal.detail()),
    };
    let due = case(sheet).plain_answer();
    let due_numbers = match due {
        TreeAnswer::Tree { .. } => (0, 0),
        TreeAnswer::Refused(refusal) => (refusal.number.into(), refusal.detail),
    };
    assert_eq!(told, due_numbers, "{:?}", sheet.bytes());
    assert!(memory == tree_due(&before, &case(sheet), &due), "memory after {:?}", sheet.bytes());
    told
}

#[test]
fn a_small_job_is_routed() {
    assert_eq!(answered(&small()), (0, 0));
}

#[test]
fn every_beginning_of_a_sheet_is_number_one() {
    let whole = small();
    for length in 0..whole.bytes().len() {
        assert_eq!(answered(&Sheet::from_bytes(&whole.bytes()[..length])), (1, 0), "{length} bytes");
    }
}

#[test]
fn every_byte_changed() {
    let whole = small();
    for place in 0..whole.bytes().len() {
        for byte in [0, 1, 2, 3, 7, 13, 64, 65, 128, 255] {
            let mut bytes = whole.bytes().to_vec();
            bytes[place] = byte;
            answered(&Sheet::from_bytes(bytes));
        }
    }
}

#[test]
fn bytes_left_over_and_sheets_too_long() {
    let mut bytes = small().bytes().to_vec();
    bytes.push(0);
    assert_eq!(route_tree(&Sheet::from_bytes(bytes)), Err(Refusal::Sheet));
    assert_eq!(route_tree(&Sheet::from_bytes(vec![1; Sheet::MAX_BYTES + 1])), Err(Refusal::Sheet));
}

type Shorten = fn(&mut TreeMemory);

/// Every buffer but the branches, one short of what it needs.
const SHORT: [Shorten; 12] = [
    |memory| memory.occupied.truncate(29),
    |memory| memory.repeaters.truncate(29),
    |memory| memory.kinds.truncate(29),
    |memory| memory.blocked.truncate(29),
    |memory| memory.classes.truncate(29),
    |memory| memory.joinable.truncate(29),
    |memory| memory.known.truncate(29),
    |memory| memory.previous.truncate(29),
    |memory| memory.path.truncate(29),
    |memory| memory.best.truncate(29),
    |memory| memory.queue.truncate(1),
    |memory| memory.values.truncate(19),
];

#[test]
fn a_short_buffer_is_number_six_and_touches_nothing() {
    for shorten in SHORT {
        let mut memory = dirty_tree(TreeMemory::for_sheet(&small()), 0x77);
        shorten(&mut memory);
        let before = memory.clone();
        assert_eq!(memory.route_tree(&small()), Err(Refusal::Buffer));
        assert!(memory == before);
    }
}

#[test]
fn a_sheet_is_read_before_its_buffers_are_judged() {
    let mut bytes = small().bytes().to_vec();
    bytes[0] = 2;
    for shorten in SHORT {
        let mut memory = dirty_tree(TreeMemory::for_sheet(&small()), 0x77);
        shorten(&mut memory);
        assert_eq!(memory.route_tree(&Sheet::from_bytes(bytes.clone())), Err(Refusal::Sheet));
    }
}

#[test]
fn a_short_branch_buffer_names_its_sink() {
    let tree = route_tree(&small()).unwrap();
    let cells = tree.branches.concat().len();
    let mut exact = dirty_tree(TreeMemory::new(30, 150, cells), 0x77);
    assert_eq!(exact.route_tree(&small()), Ok(tree));
    let mut memory = dirty_tree(TreeMemory::new(30, 150, 0), 0x77);
    let before = memory.clone();
    // the nearer sink goes first: it is the second of the sheet
    assert_eq!(memory.route_tree(&small()), Err(Refusal::BranchesFull { sink: 2 }));
    let due = TreeAnswer::Refused(cases::Refusal::new(15, 2));
    assert!(memory == tree_due(&before, &case(&small()), &due));
}

#[test]
fn a_search_over_bad_input() {
    let room = Room { wide: 3, high: 1, deep: 1 };
    let usual = Config::default();
    let refused = |room, config, kinds: &[u8], start, goal| search(room, config, kinds, start, goal).unwrap_err().number();
    assert_eq!(refused(Room { wide: 0, ..room }, usual, &[], 0, 0), 2);
    assert_eq!(refused(Room { wide: 301, ..room }, usual, &[0; 301], 0, 0), 2);
    assert_eq!(
        refused(
            Room {
                wide: 64,
                high: 64,
                deep: 64
            },
            usual,
            &[],
            0,
            0
        ),
        2
    );
    assert_eq!(refused(room, Config { limit: 800_001, ..usual }, &[0; 3], 0, 2), 3);
    assert_eq!(refused(room, Config { support: 1_000_001, ..usual }, &[0; 3], 0, 2), 3);
    assert_eq!(refused(room, usual, &[0; 2], 0, 2), 6);
    assert_eq!(refused(room, usual, &[0; 4], 0, 2), 6);
    assert_eq!(refused(room, usual, &[0, 13, 0], 0, 2), 5);
    assert_eq!(refused(room, usual, &[0; 3], 0, 3), 4);
    assert_eq!(refused(room, usual, &[0; 3], usize::MAX, 0), 4);
}

#[test]
fn a_search_with_a_short_buffer_touches_nothing() {
    let room = Room { wide: 3, high: 1, deep: 1 };
    let shortened: [fn(&mut SearchMemory); 6] = [
        |memory| memory.path.truncate(2),
        |memory| memory.known.truncate(2),
        |memory| memory.previous.truncate(2),
        |memory| memory.classes.truncate(2),
        |memory| memory.queue.truncate(1),
        |memory| memory.values.truncate(3),
    ];
    for shorten in shortened {
        let mut memory = dirty_search(SearchMemory::for_search(room, Config::default()), 0x77);
        shorten(&mut memory);
        let before = memory.clone();
        assert_eq!(memory.search(room, Config::default(), &[0; 3], 0, 2), Err(Refusal::Buffer));
        assert!(memory == before);
    }
}
