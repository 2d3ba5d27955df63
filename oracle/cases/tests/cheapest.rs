//! Dijkstra's rule beside the plain router: where a flat step costs 10 or more and a stair 20 or more both have the same cost,
//! at any costs Dijkstra's is no higher, and 11 comes of both alike.

use cases::Refusal;
use cases::cheapest::Cheapest;
use cases::generate::{Profile, random_plain_search};
use cases::rng::Rng;
use cases::room::{Config, Room};
use cases::samples::{Sample, samples};
use cases::search::{End, Search, SearchAnswer};

/// The plain router's end with no node limit and a queue that is never full, of input that is not refused.
fn unlimited(case: &Search, room: &Room) -> End {
    let config = Config {
        node_limit: u32::MAX,
        ..case.config
    };
    let case = Search {
        config,
        ..case.clone()
    };
    case.run(room, usize::MAX).end
}

#[test]
fn samples_have_their_cost() {
    for (name, sample) in samples() {
        let Sample::Search(case, SearchAnswer::Route { path, cost, .. }) = sample else {
            continue;
        };
        assert_eq!(case.cheapest(), Cheapest::Cost(cost.into()), "{name}");
        let path: Vec<u32> = path.into_iter().map(u32::from).collect();
        assert_eq!(case.lawful_cost(&path), Some(cost.into()), "{name}");
    }
}

#[test]
fn no_dearer_than_the_plain_router() {
    let mut seen = [0; 3];
    for index in 0..20_000 {
        let case = random_plain_search(&mut Rng::for_case(5, index), Profile::Small);
        let due = case.cheapest();
        let Ok(room) = case.judge() else { continue };
        let priced = case.config.horizontal >= 10 && case.config.stair >= 20;
        match (unlimited(&case, &room), due) {
            (End::Route { path, cost }, Cheapest::Cost(least)) => {
                assert!(least == cost || !priced && least < cost, "case {index}");
                let path: Vec<u32> = path.into_iter().map(|cell| cell as u32).collect();
                assert_eq!(case.lawful_cost(&path), Some(cost), "case {index}");
                seen[usize::from(least < cost)] += 1;
            }
            (End::NoRoute, Cheapest::Refused(Refusal { number: 11, .. })) => seen[2] += 1,
            (End::NotRouteable { cell }, Cheapest::Refused(refusal)) => {
                assert_eq!(refusal, Refusal::new(10, cell as u32), "case {index}");
            }
            (end, due) => panic!("case {index}: {end:?}, {due:?}"),
        }
    }
    assert!(seen.iter().all(|count| *count > 100), "{seen:?}");
}

/// There are at most as many sweeps as cells are reached; a row that is swept from its far end takes all of them.
#[test]
fn few_sweeps() {
    let mut most = 0;
    for index in 0..5_000 {
        let case = random_plain_search(&mut Rng::for_case(6, index), Profile::Small);
        if let Some(swept) = case.sweeps() {
            assert!(swept.sweeps <= swept.reached, "case {index}");
            most = most.max(swept.sweeps);
            if let Cheapest::Refused(Refusal { number: 11, detail }) = case.cheapest() {
                assert_eq!(swept.reached, detail as usize, "case {index}");
            }
        }
    }
    assert!(most > 10, "{most}");
    let row = Search {
        start: 6,
        goal: 0,
        ..row(&[0; 7], [10, 25, 15])
    };
    let swept = row.sweeps().unwrap();
    assert_eq!((swept.sweeps, swept.reached), (7, 7));
}

fn row(kinds: &[u8], costs: [u32; 3]) -> Search {
    Search {
        sides: [kinds.len() as u16, 1, 1],
        config: Config {
            node_limit: 0,
            horizontal: costs[0],
            stair: costs[1],
            support: costs[2],
        },
        start: 0,
        goal: kinds.len() as u32 - 1,
        queue: 0,
        lent: kinds.len() as u32,
        kinds: kinds.to_vec(),
    }
}

/// Of a row with a wall behind its second cell two cells are reached; an unlawful step has no price.
#[test]
fn what_is_counted_and_priced() {
    let refused = row(&[0, 0, 1, 0], [0, 0, 0]).cheapest();
    assert_eq!(refused, Cheapest::Refused(Refusal::new(11, 2)));
    let free = row(&[0, 0, 0], [7, 0, 0]);
    assert_eq!(free.cheapest(), Cheapest::Cost(14));
    assert_eq!(free.lawful_cost(&[0, 1, 2]), Some(14));
    for wrong in [&[0, 2][..], &[0, 1], &[1, 2], &[0, 1, 1, 2], &[]] {
        assert_eq!(free.lawful_cost(wrong), None, "{wrong:?}");
    }
}
