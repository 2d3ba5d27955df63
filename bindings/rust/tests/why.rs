//! Why there is no route: the rooms of docs/MORE-RULES.md, memory that is too short, and the stored answers, of which each byte counts.

use std::collections::BTreeSet;

use cases::answers::WHYS;
use cases::files;
use cases::room::MOST_CELLS;
use cases::search::{Search, SearchAnswer};
use cases::why::WhyAnswer;
use checks::{config_of, dirty_why, room_of, why_due};
use dustroute::lent::WhyMemory;
use dustroute::{Config, Cost, Kind, MOVES, Nodes, Reason, Refusal, Room, Route, WalledIn, Why, why};

fn room(wide: u16, high: u16, deep: u16) -> Room {
    Room { wide, high, deep }
}

/// A room of Air but for these cells, at the usual costs.
fn asked(room: Room, others: &[(usize, Kind)], start: usize, goal: usize) -> Why {
    let mut kinds = vec![Kind::Air as u8; room.cells().unwrap()];
    others.iter().for_each(|(cell, kind)| kinds[*cell] = *kind as u8);
    why(room, Config::default(), &kinds, start, goal)
}

fn walled_in(answer: Why) -> WalledIn {
    match answer {
        Why::WalledIn(walled_in) => walled_in,
        other => panic!("{other:?}"),
    }
}

/// What is told of the twelve moves of a cell: none where it is allowed.
fn moves(of: &WalledIn, cell: usize) -> [u8; 12] {
    let mut bytes = [0; 12];
    for (step, byte) in bytes.iter_mut().enumerate() {
        *byte = of.reason(cell, step).map_or(0, |reason| reason as u8);
    }
    bytes
}

#[test]
fn samples_d_and_i() {
    let d = walled_in(asked(room(3, 1, 1), &[(1, Kind::Solid)], 0, 2));
    assert_eq!((d.expanded(), d.reached().collect::<Vec<_>>()), (Nodes(1), vec![0]));
    assert_eq!(moves(&d, 0), [1, 2, 1, 1, 1, 1, 1, 1, 1, 1, 1, 1]);
    let i = walled_in(asked(room(3, 2, 1), &[(2, Kind::Lever)], 1, 5));
    assert_eq!(i.reached().collect::<Vec<_>>(), [1]);
    assert_eq!(moves(&i, 1), [2, 3, 1, 1, 1, 1, 1, 1, 1, 1, 1, 1]);
}

#[test]
fn every_reason() {
    let told = walled_in(asked(room(3, 2, 1), &[(0, Kind::Lever), (4, Kind::Lever)], 1, 5));
    assert_eq!(told.expanded(), Nodes(3));
    assert_eq!(told.reached().collect::<Vec<_>>(), [1, 2, 3]);
    assert_eq!(moves(&told, 1), [0, 0, 1, 1, 1, 1, 1, 1, 1, 1, 1, 1]);
    assert_eq!(moves(&told, 2), [1, 2, 3, 1, 2, 3, 1, 1, 1, 1, 1, 1]);
    assert_eq!(moves(&told, 3), [2, 3, 1, 2, 3, 1, 1, 1, 1, 1, 1, 1]);
    // of a cell that is not reached, of one that there is none of, and of a thirteenth move nothing is told
    assert_eq!(moves(&told, 5), [0; 12]);
    assert!(!told.is_reached(5) && !told.is_reached(6) && told.reason(6, 0).is_none() && told.reason(1, 12).is_none());
    let walls: Vec<_> = told.walls().collect();
    assert_eq!(walls.len(), 34);
    let into = |reason| -> BTreeSet<_> { walls.iter().filter(|wall| wall.reason == reason).map(|wall| wall.to).collect() };
    assert_eq!(into(Reason::Outside), BTreeSet::from([None]));
    assert_eq!(into(Reason::Taken), BTreeSet::from([Some(0), Some(4)]));
    assert_eq!(into(Reason::BadSupport), BTreeSet::from([Some(1), Some(5)]));
}

#[test]
fn nothing_is_told_where_the_search_is_cut_short() {
    let row = room(3, 1, 1);
    let limited = Config {
        limit: 0,
        ..Config::default()
    };
    assert_eq!(why(row, limited, &[0, 1, 0], 0, 2), Why::Refused(Refusal::LimitPassed(Nodes(1))));
    let mut short = dirty_why(WhyMemory::new(9, 4), 0x77);
    let answer = short.why(room(3, 1, 3), Config::default(), &[0; 9], 4, 0);
    assert_eq!(answer, Why::Refused(Refusal::QueueFull(Nodes(2))));
    assert_eq!((short.reached, short.walls), (vec![0; 9], vec![0; 108]));
}

#[test]
fn a_route_and_refusals_are_those_of_the_search() {
    let row = room(3, 1, 1);
    let route = Route {
        path: vec![0, 1, 2],
        cost: Cost(20),
        expanded: Nodes(2),
        steps: Cost(20),
        supports: Cost(0),
        laid: 0,
    };
    assert_eq!(asked(row, &[], 0, 2), Why::Route(route));
    assert_eq!(
        asked(row, &[(2, Kind::Lever)], 0, 2),
        Why::Refused(Refusal::NotRouteable { cell: 2 })
    );
    assert_eq!(asked(row, &[], 0, 3), Why::Refused(Refusal::Position));
    assert_eq!(why(room(301, 1, 1), Config::default(), &[0; 301], 0, 1), Why::Refused(Refusal::Sides));
    assert_eq!(why(row, Config::default(), &[0; 2], 0, 2), Why::Refused(Refusal::Buffer));
}

#[test]
fn moves_lead_where_they_say() {
    let room = room(3, 4, 5);
    for cell in 0..60 {
        let at = room.position(cell).unwrap();
        assert_eq!(room.cell(at), cell);
        for (step, [dx, dy, dz]) in MOVES.into_iter().enumerate() {
            let next = room.neighbour(cell, step).and_then(|next| room.position(next));
            let sums = [(at.x, dx, 3), (at.y, dy, 4), (at.z, dz, 5)].map(|(at, by, side)| (i32::from(at) + i32::from(by), side));
            let inside = sums.iter().all(|(sum, side)| (0..*side).contains(sum));
            let found = next.map(|next| [next.x, next.y, next.z].map(i32::from));
            assert_eq!(found, inside.then_some(sums.map(|(sum, _)| sum)));
        }
    }
}

type Shorten = fn(&mut WhyMemory);

/// Every buffer one short of what it needs in a room of three cells.
const SHORT: [Shorten; 8] = [
    |memory| memory.search.path.truncate(2),
    |memory| memory.reached.truncate(2),
    |memory| memory.walls.truncate(35),
    |memory| memory.search.known.truncate(2),
    |memory| memory.search.previous.truncate(2),
    |memory| memory.search.classes.truncate(2),
    |memory| memory.search.queue.truncate(1),
    |memory| memory.search.values.truncate(3),
];

#[test]
fn a_short_buffer_is_number_six_and_touches_nothing() {
    for shorten in SHORT {
        let mut memory = dirty_why(WhyMemory::new(3, 15), 0x77);
        shorten(&mut memory);
        let before = memory.clone();
        let answer = memory.why(room(3, 1, 1), Config::default(), &[0, 1, 0], 0, 2);
        assert_eq!(answer, Why::Refused(Refusal::Buffer));
        assert!(memory == before);
    }
}

/// Memory of the lengths that the case names, and `longer` in every buffer but the queue, whose length decides.
fn lent(case: &cases::why::Why, longer: usize) -> WhyMemory {
    let cells = case.search.lent as usize + longer;
    let memory = WhyMemory {
        reached: vec![0; case.reached as usize + longer],
        walls: vec![0; case.walls as usize + longer],
        ..WhyMemory::new(cells, case.search.queue as usize)
    };
    dirty_why(memory, 0xA5)
}

/// Whether an answer can be one of this search in a room of so many cells: its path is lawful and fits its buffer, and the cells that
/// are reached ascend.
fn is_possible(answer: &WhyAnswer, search: &Search, cells: usize) -> bool {
    let ascending = answer.reached.is_sorted_by(|one, other| one.cell < other.cell);
    let fits = match &answer.search {
        SearchAnswer::Route { path, .. } => {
            let cells: Vec<u32> = path.iter().copied().map(u32::from).collect();
            cells.len() <= search.lent as usize && search.lawful_cost(&cells).is_some()
        }
        SearchAnswer::Refused(_) => true,
    };
    fits && ascending && answer.reached.iter().all(|told| usize::from(told.cell) < cells)
}

/// Whether a case is answered so: the number, and every byte of lent memory.
fn is_answered_so(case: &cases::why::Why, answer: &WhyAnswer, longer: usize) -> bool {
    let search = &case.search;
    let cells = cases::room::Room::new(search.sides, MOST_CELLS).map_or(0, |room| room.cells());
    let before = lent(case, longer);
    let mut after = before.clone();
    let [start, goal] = [search.start, search.goal].map(|end| end as usize);
    let number = after.call(room_of(search.sides), config_of(&search.config), &search.kinds, start, goal);
    number == u32::from(answer.number()) && is_possible(answer, search, cells) && after == why_due(&before, search, cells, answer)
}

type Stored = Vec<(cases::why::Why, WhyAnswer)>;

fn stored() -> Stored {
    let cases = files::read::<cases::why::Why>(&WHYS.bytes()).unwrap();
    cases.into_iter().map(|(case, answer)| (case, answer.unwrap())).collect()
}

#[test]
fn stored_whys() {
    for (index, (case, answer)) in stored().into_iter().enumerate() {
        assert!(is_answered_so(&case, &answer, 0), "why {index}");
        // longer memory may suffice where 6 was due
        if answer.number() != 6 {
            assert!(is_answered_so(&case, &answer, 3), "why {index}, longer");
        }
    }
}

/// Each byte of a stored answer counts: with any one changed, the file is no such file, or the replay says no.
#[test]
fn a_changed_byte_of_a_stored_answer_is_seen() {
    let small = |(case, _): &(cases::why::Why, WhyAnswer)| case.search.kinds.len() <= 64;
    let mut changed = 0;
    for (index, (case, answer)) in stored().into_iter().filter(small).enumerate() {
        let bare = files::write_bare(std::slice::from_ref(&case)).len();
        let bytes = files::write_answered(&[(case, answer)]);
        for place in bare..bytes.len() {
            let mut bytes = bytes.clone();
            bytes[place] ^= 1 << ((index + place) % 8);
            let seen = match files::read::<cases::why::Why>(&bytes).as_deref() {
                Ok([(case, Some(answer))]) => !is_answered_so(case, answer, 0),
                _ => true,
            };
            assert!(seen, "byte {place} of why {index}");
            changed += 1;
        }
    }
    assert!(changed > 10_000, "{changed}");
}
