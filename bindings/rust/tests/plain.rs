//! The plain engine: on the stored searches, where it must have the stored cost or the stored "no route"; on the samples of
//! docs/RULES.md; and over memory of any lengths.

use cases::answers::SEARCHES;
use cases::cheapest::Cheapest;
use cases::files;
use cases::search::{Search, SearchAnswer};
use checks::{config_of, dirty_plain, plain_fault, room_of};
use dustroute::lent::{PLAIN_VALUES, PlainMemory};
use dustroute::{Config, Cost, Costs, PlainRefusal, PlainRoute, Reached, Refusal, Room, plain};

/// Asks over memory of such lengths, with rubbish in it; what comes back and what is left must be as due.
fn ask(case: &Search, due: &Cheapest, longer: usize, name: &str) {
    let before = dirty_plain(PlainMemory::new(case.lent as usize + longer), 0xA5);
    let mut after = before.clone();
    let costs = config_of(&case.config).costs();
    let number = after.call(room_of(case.sides), costs, &case.kinds, case.start as usize, case.goal as usize);
    let fault = plain_fault(case, due, number, &before, &after);
    assert_eq!(fault, None, "{name}: {number} for {due:?}");
}

/// Where a flat step costs 10 or more and a stair 20 or more, a stored route's cost is the plain engine's; at any costs it is no lower.
/// "No route" comes of both.
#[test]
fn stored_searches_have_the_same_cost() {
    let [mut same, mut no_route, mut lower] = [0; 3];
    for (index, (case, stored)) in files::read::<Search>(&SEARCHES.bytes()).unwrap().into_iter().enumerate() {
        let due = case.cheapest();
        ask(&case, &due, 0, &format!("search {index}"));
        if due.number() != 6 {
            ask(&case, &due, 3, &format!("search {index}, 3 longer"));
        }
        let priced = case.config.horizontal >= 10 && case.config.stair >= 20;
        match (stored.unwrap(), due) {
            (SearchAnswer::Route { cost, .. }, Cheapest::Cost(least)) => {
                assert!(least == u64::from(cost) || !priced && least < u64::from(cost), "search {index}");
                same += usize::from(priced);
                lower += usize::from(least < u64::from(cost));
            }
            (SearchAnswer::Route { .. }, _) => panic!("search {index} has a route"),
            (SearchAnswer::Refused(refusal), _) if refusal.number == 11 => {
                assert_eq!(due.number(), 11, "search {index}");
                no_route += 1;
            }
            _ => {}
        }
    }
    assert!(same >= 300 && no_route >= 100 && lower > 0, "{same} {no_route} {lower}");
}

fn row(wide: u16) -> Room {
    Room { wide, high: 1, deep: 1 }
}

fn route(path: &[u32], cost: u32) -> Result<PlainRoute, PlainRefusal> {
    Ok(PlainRoute {
        path: path.to_vec(),
        cost: Cost(cost),
    })
}

#[test]
fn a_row_of_three() {
    let costs = Costs::default();
    assert_eq!(plain(row(1), costs, &[0], 0, 0), route(&[0], 0));
    assert_eq!(plain(row(3), costs, &[0; 3], 0, 2), route(&[0, 1, 2], 20));
    assert_eq!(plain(row(3), costs, &[0, 1, 0], 0, 2), Err(PlainRefusal::NoRoute(Reached(1))));
    let taken = Refusal::NotRouteable { cell: 2 };
    assert_eq!(plain(row(3), costs, &[0, 0, 7], 0, 2), Err(PlainRefusal::Refused(taken)));
}

/// Below 10 and 20 the search may answer a dearer route: 2x2x1, all Air, a new support for 9, from 2 to 3.
#[test]
fn cheaper_than_the_search() {
    let room = Room { wide: 2, high: 2, deep: 1 };
    let costs = Costs {
        horizontal: 0,
        stair: 0,
        support: 9,
    };
    let config = Config {
        horizontal: 0,
        stair: 0,
        support: 9,
        ..Config::default()
    };
    assert_eq!(plain(room, costs, &[0; 4], 2, 3), route(&[2, 0, 3], 9));
    let searched = dustroute::search(room, config, &[0; 4], 2, 3).unwrap();
    assert_eq!(searched.cost, Cost(18));
}

/// 2, 3, 6, 5, 4 in this order, with nothing touched; fewer than three values are 6, behind 2 and 3.
#[test]
fn refused_in_order() {
    let mut kinds = vec![0, 0, 13];
    let mut room = row(0);
    let mut costs = Costs {
        horizontal: 1_000_001,
        ..Costs::default()
    };
    let mut goal = 3;
    let mut memory = dirty_plain(PlainMemory::new(2), 0x5A);
    memory.values.truncate(PLAIN_VALUES - 1);
    let mut refused = |room, costs, kinds: &[u8], goal, cells| {
        memory.path.resize(cells, 0x5A5A_5A5A);
        let before = memory.clone();
        let number = memory.call(room, costs, kinds, 0, goal);
        assert!(memory == before, "number {number} touches memory");
        number
    };
    assert_eq!(refused(room, costs, &kinds, goal, 3), 2);
    room = row(3);
    assert_eq!(refused(room, costs, &kinds, goal, 3), 3);
    costs = Costs::default();
    assert_eq!(refused(room, costs, &kinds, goal, 3), 6);
    let answer = |kinds: &[u8], goal| plain(room, costs, kinds, 0, goal);
    assert_eq!(answer(&kinds[..2], goal), Err(PlainRefusal::Refused(Refusal::Buffer)));
    assert_eq!(answer(&kinds, goal), Err(PlainRefusal::Refused(Refusal::Code)));
    kinds[2] = 0;
    assert_eq!(answer(&kinds, goal), Err(PlainRefusal::Refused(Refusal::Position)));
    goal = 2;
    assert_eq!(answer(&kinds, goal), route(&[0, 1, 2], 20));
}

/// Each buffer one short, then each of length 0: number 6, and nothing is touched.
#[test]
fn short_buffers() {
    for short in 0..5 {
        for none in [false, true] {
            let mut before = dirty_plain(PlainMemory::new(3), 0x5A);
            let length = |full: usize| if none { 0 } else { full - 1 };
            match short {
                0 => before.path.truncate(length(3)),
                1 => before.known.truncate(length(3)),
                2 => before.previous.truncate(length(3)),
                3 => before.classes.truncate(length(3)),
                _ => before.values.truncate(length(PLAIN_VALUES)),
            }
            let mut after = before.clone();
            assert_eq!(after.call(row(3), Costs::default(), &[0; 3], 0, 2), 6, "buffer {short}");
            assert!(after == before, "buffer {short}");
        }
    }
}
