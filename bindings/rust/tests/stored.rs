//! The stored searches and sheets, whose answers the published Rust gave: each is asked over memory with rubbish in it, of the lengths that
//! the case names and longer.

use cases::answers::{LIMIT_SHEETS, SEARCHES, SHEETS};
use cases::search::{Search, SearchAnswer};
use cases::sheet::TreeAnswer;
use cases::{files, sheet};
use checks::{config_of, dirty_search, dirty_tree, room_of, search_due, tree_due};
use dustroute::lent::{SearchMemory, TreeMemory};
use dustroute::{Cost, Nodes, Refusal, Route, Sheet, Tree};

fn refused(stored: cases::Refusal) -> (u32, u32) {
    (stored.number.into(), stored.detail)
}

fn cells(stored: &[u16]) -> Vec<u32> {
    stored.iter().map(|cell| u32::from(*cell)).collect()
}

fn same_route(answer: &Result<Route, Refusal>, stored: &SearchAnswer) -> bool {
    match (answer, stored) {
        (Err(refusal), SearchAnswer::Refused(wanted)) => (refusal.number(), refusal.detail()) == refused(*wanted),
        (Ok(route), SearchAnswer::Route { path, cost, expanded }) => {
            (&route.path, route.cost, route.expanded) == (&cells(path), Cost(*cost), Nodes(*expanded))
        }
        _ => false,
    }
}

fn same_tree(answer: &Result<Tree, Refusal>, stored: &TreeAnswer) -> bool {
    match (answer, stored) {
        (Err(refusal), TreeAnswer::Refused(wanted)) => (refusal.number(), refusal.detail()) == refused(*wanted),
        (
            Ok(tree),
            TreeAnswer::Tree {
                branches,
                occupied,
                repeaters,
            },
        ) => {
            let wanted: Vec<_> = branches.iter().map(|branch| cells(branch)).collect();
            tree.branches == wanted && tree.occupied.len() == *occupied as usize && tree.repeaters == cells(repeaters)
        }
        _ => false,
    }
}

/// Longer by this much, in every buffer but the queue and the branches, whose lengths decide.
const LONGER: [u32; 2] = [0, 3];

/// Asks a search over memory of the lengths that it names.
fn ask_search(case: &Search, due: &SearchAnswer, name: &str) {
    let before = dirty_search(SearchMemory::new(case.lent as usize, case.queue as usize), 0xA5);
    let mut after = before.clone();
    let (room, config) = (room_of(case.sides), config_of(&case.config));
    let answer = after.search(room, config, &case.kinds, case.start as usize, case.goal as usize);
    assert!(same_route(&answer, due), "{name}: {answer:?} for {due:?}");
    assert!(after == search_due(&before, case, due), "{name}: memory");
}

#[test]
fn stored_searches() {
    let cases = files::read::<Search>(&SEARCHES.bytes()).unwrap();
    for (index, (case, stored)) in cases.into_iter().enumerate() {
        let stored = stored.unwrap();
        for longer in LONGER {
            let lent = case.lent + longer;
            let case = Search { lent, ..case.clone() };
            // memory that was too short may now suffice
            let due = if stored.number() == 6 {
                case.plain_answer()
            } else {
                stored.clone()
            };
            ask_search(&case, &due, &format!("search {index}, {longer} longer"));
        }
    }
}

/// Asks a sheet over memory of the lengths that it names.
fn ask_tree(case: &sheet::Sheet, due: &TreeAnswer, name: &str) {
    let memory = TreeMemory::new(case.lent as usize, case.queue as usize, case.branch as usize);
    let before = dirty_tree(memory, 0x5A);
    let mut after = before.clone();
    let answer = after.route_tree(&Sheet::from_bytes(case.bytes.clone()));
    assert!(same_tree(&answer, due), "{name}: {answer:?} for {due:?}");
    assert!(after == tree_due(&before, case, due), "{name}: memory");
}

/// Those of version 1 alone, and those at any limits: a file of sheets that carry limits and of those that carry none.
#[test]
fn stored_sheets() {
    for file in [&SHEETS, &LIMIT_SHEETS] {
        ask_trees(files::read(&file.bytes()).unwrap());
    }
}

fn ask_trees(cases: files::Cases<sheet::Sheet>) {
    for (index, (case, stored)) in cases.into_iter().enumerate() {
        let stored = stored.unwrap();
        for longer in LONGER {
            let lent = case.lent + longer;
            let case = sheet::Sheet { lent, ..case.clone() };
            let due = if stored.number() == 6 {
                case.plain_answer()
            } else {
                stored.clone()
            };
            ask_tree(&case, &due, &format!("sheet {index}, {longer} longer"));
        }
    }
}
