//! Lists of routed nets: the plain laying beside the published `materialize_multinet`. `LAYINGS` says how many lists, 3,000 unless it is set.

use std::collections::BTreeMap;
use std::env;

use cases::generate::{Profile, random_sheet};
use cases::laying::{LaidRoom, Overlap, lay_all};
use cases::rng::Rng;
use cases::room::{MOST_CELLS, Room, facing, kind, port};
use cases::sheet::{Job, Port};
use cases::tree::{Limits, Net, route_net_tree};
use shapes::lay_published;

const SEED: u64 = 97_012;
const MOST_NETS: usize = 4;
const MOST_CELLS_LAID: usize = 1_200;

fn random_port(rng: &mut Rng, room: &Room) -> Port {
    let place = room.place(rng.below(room.cells()));
    Port {
        at: [place.x as u16, place.y as u16, place.z as u16],
        kind: rng.pick(&[port::WIRE, port::WIRE, port::BLOCK_POWER]),
        facing: rng.below(usize::from(facing::LAST) + 1) as u8,
    }
}

/// One more net over the same blocks, with the cells of those before as conductors, or without, so that nets may overlap.
fn another(rng: &mut Rng, room: &Room, list: &[(Job, Net)]) -> Job {
    let mut job = list[0].0.clone();
    job.source = random_port(rng, room);
    job.sinks = (0..rng.between(0, 3))
        .map(|_| random_port(rng, room).into())
        .collect();
    if rng.percent(70) {
        for cell in list.iter().flat_map(|(_, net)| &net.occupied) {
            let place = room.place(*cell);
            job.conductors
                .push([place.x as u16, place.y as u16, place.z as u16]);
        }
    }
    job
}

/// A random list: a room with its blocks from a random sheet, and the nets that the plain router gives. None where that sheet has no tree.
fn random_list(rng: &mut Rng) -> Option<(Room, Vec<(Job, Net)>)> {
    let profile = rng.pick(&[Profile::Tiny, Profile::Small]);
    let (job, room) = random_sheet(rng, profile).judge(MOST_CELLS).ok()?;
    if room.cells() > MOST_CELLS_LAID {
        return None;
    }
    let net = route_net_tree(&job, &room, Limits::NONE).ok()?;
    let mut list = vec![(job, net)];
    for _ in 1..rng.between(1, MOST_NETS) {
        let job = another(rng, &room, &list);
        if let Ok(net) = route_net_tree(&job, &room, Limits::NONE) {
            list.push((job, net));
        }
    }
    Some((room, list))
}

/// What a list shows, for the count.
fn shows(list: &[(Job, Net)], plain: &Result<LaidRoom, Overlap>) -> Vec<&'static str> {
    let mut seen = Vec::new();
    match plain {
        Err(_) => seen.push("overlap"),
        Ok(laid) => {
            seen.push(if list.len() > 1 { "several" } else { "one" });
            let bare = |net: &Net| {
                let cells = net.occupied.iter();
                cells.clone().count() > 1
                    && cells
                        .clone()
                        .all(|cell| matches!(laid.kinds[*cell], kind::SOLID | kind::TRANSPARENT))
            };
            if list.iter().any(|(_, net)| bare(net)) {
                seen.push("a net with no wire");
            }
            if list.iter().any(|(_, net)| !net.repeaters.is_empty()) {
                seen.push("repeaters");
            }
            let sinks = list.iter().flat_map(|(job, _)| &job.sinks);
            if sinks
                .clone()
                .any(|sink| sink.port.kind == port::BLOCK_POWER)
            {
                seen.push("power");
            }
        }
    }
    seen
}

#[test]
fn the_published_rust_lays_the_same() {
    let count = env::var("LAYINGS").map_or(3_000, |count| count.parse().expect("a count"));
    let mut seen: BTreeMap<&str, usize> = BTreeMap::new();
    let mut done = 0;
    for index in 0.. {
        if done == count {
            break;
        }
        let mut rng = Rng::for_case(SEED, index);
        let Some((room, list)) = random_list(&mut rng) else {
            continue;
        };
        done += 1;
        let plain = lay_all(&room, &list);
        let published = lay_published(&room, &list);
        let told = plain.clone().map(|laid| (laid.kinds, laid.facings));
        let theirs = published.map(|laid| (laid.kinds, laid.facings));
        assert_eq!(told, theirs, "list {index}: {list:?}");
        for what in shows(&list, &plain) {
            *seen.entry(what).or_default() += 1;
        }
    }
    println!("{done} lists: {seen:?}");
    for what in ["one", "several", "overlap", "repeaters", "power"] {
        assert!(seen.contains_key(what), "no list shows {what}");
    }
}
