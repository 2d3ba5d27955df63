//! Nets laid by the plain laying: the smallest lists that show a rule.

use cases::laying::{LaidRoom, Overlap, lay_all};
use cases::room::{MOST_CELLS, Room, facing, kind};
use cases::samples::{block, block_power, default_job, wire};
use cases::sheet::{Job, Port};
use cases::tree::{Limits, Net, route_net_tree};

/// The nets one after another, each with the cells of those before as conductors, laid.
fn laid(jobs: Vec<Job>) -> Result<LaidRoom, Overlap> {
    let room = Room::new(jobs[0].sides, MOST_CELLS).unwrap();
    let mut list: Vec<(Job, Net)> = Vec::new();
    for mut job in jobs {
        for cell in list.iter().flat_map(|(_, net)| &net.occupied) {
            let place = room.place(*cell);
            let at = [place.x, place.y, place.z].map(|part| part as u16);
            job.conductors.push(at);
        }
        let net = route_net_tree(&job, &room, Limits::NONE).unwrap();
        list.push((job, net));
    }
    lay_all(&room, &list)
}

fn net(sides: [u16; 3], source: [u16; 3], sinks: &[Port]) -> Job {
    let mut job = default_job(sides, sinks);
    job.source.at = source;
    job
}

fn plain(at: [u16; 3]) -> Port {
    wire(at, facing::NONE)
}

/// The upper net's supports stand where the lower net's wire would lie: it is laid with none.
#[test]
fn a_net_with_no_wire() {
    let sides = [2, 2, 1];
    let upper = net(sides, [0, 1, 0], &[plain([1, 1, 0])]);
    let lower = net(sides, [0, 0, 0], &[plain([1, 0, 0])]);
    let kinds = |jobs| laid(jobs).unwrap().kinds;
    assert_eq!(kinds(vec![upper.clone(), lower.clone()]), [2, 3, 2, 3]);
    assert_eq!(kinds(vec![lower, upper]), [3, 3, 3, 3]);
}

/// Sample l: the repeater faces the block that the sink powers. A Lever at such a terminal is gone.
#[test]
fn block_power_sinks() {
    let mut job = net(
        [6, 1, 1],
        [0, 0, 0],
        &[block_power([5, 0, 0], facing::WEST)],
    );
    job.blocks.push(block(0, [5, 0, 0], kind::SOLID));
    let room = laid(vec![job]).unwrap();
    assert_eq!(room.kinds, [3, 3, 3, 3, 5, 1]);
    assert_eq!(room.facings, [0, 0, 0, 0, facing::EAST, 0]);
    let mut job = net(
        [3, 2, 1],
        [0, 1, 0],
        &[block_power([2, 1, 0], facing::WEST)],
    );
    job.blocks.push(block(0, [1, 1, 0], kind::LEVER));
    let room = laid(vec![job]).unwrap();
    assert_eq!(room.kinds, [2, 3, 1, 5, 0, 0]);
    assert_eq!(room.facings, [0, 0, 0, facing::EAST, 0, 0]);
}

/// Nets that share an end, and nets that share a cell beneath an end.
#[test]
fn overlaps() {
    let alone = net([1, 1, 1], [0, 0, 0], &[]);
    let met = Err(Overlap { net: 1, cell: 0 });
    assert_eq!(laid(vec![alone.clone(), alone]), met);
    let sides = [1, 2, 3];
    let first = net(sides, [0, 0, 0], &[wire([0, 1, 1], facing::SOUTH)]);
    let second = net(sides, [0, 1, 0], &[plain([0, 0, 1])]);
    let met = Err(Overlap { net: 1, cell: 1 });
    assert_eq!(laid(vec![first, second]), met);
}

/// A repeater faces along the path from the source, even where its branch runs the other way.
#[test]
fn directions_from_the_source() {
    let sinks = [plain([0, 0, 0]), plain([1, 0, 0])];
    let room = laid(vec![net([15, 1, 1], [14, 0, 0], &sinks)]).unwrap();
    assert_eq!(room.kinds[2], kind::REPEATER);
    assert_eq!(room.facings[2], facing::WEST);
    assert!(room.owners.iter().all(|owner| *owner == 1));
}
