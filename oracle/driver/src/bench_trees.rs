//! Times of whole trees of sixteen sinks: the proved tree through its archive, and the published Rust.
//!
//! A time is the processor time of this thread, the least of several runs, of the published Rust one. The proved tree's has everything in it, from the
//! sheet's bytes to cleared memory; for the published Rust the circuit, in its Solid shell, is built before, and only
//! `route_net_tree` is timed.

use std::hint::black_box;
use std::io::Write;
use std::time::Duration;

use cases::room::{MOST_CELLS, facing, kind};
use cases::samples::{block, default_job, wire};
use cases::sheet::{Block, Job, Port};
use cases::version::Version;
use dustroute::lent::{TREE_VALUES, TreeMemory};
use oracle::{PublishedJob, Rng, Sheet, tree_of};

use crate::bench::best;
use crate::compare_trees::{Call, tree_differs};
use crate::proved;

/// A job that is timed, and how often by the proved tree.
pub struct Load {
    pub name: &'static str,
    pub job: Job,
    runs: usize,
}

/// Both tables, or of these words the trees whose names begin so, and the second table where one is `growth`.
pub fn bench(only: &[String]) {
    println!(
        "{:<44}{:>7}{:>10}{:>12}{:>14}{:>9}",
        "trees", "cells", "occupied", "proved", "published", "faster"
    );
    for load in loads() {
        if only.is_empty() || only.iter().any(|word| load.name.starts_with(word)) {
            measure(&load);
        }
    }
    if only.is_empty() || only.iter().any(|word| word == "growth") {
        growths();
    }
}

/// The rooms of the first table.
pub fn loads() -> Vec<Load> {
    vec![
        load("open 20x10x20", open([20, 10, 20], 0)),
        load(
            "ground and pillars 20x10x20",
            ground_and_pillars([20, 10, 20]),
        ),
        load(
            "blocks and other nets 32x16x32",
            blocks_and_other_nets([32, 16, 32]),
        ),
        load("storeys 32x16x32", storeys([32, 16, 32])),
        load("serpentine 63x2x63", serpentine([63, 2, 63])),
        load("noise 32x16x32", noise([32, 16, 32])),
    ]
}

/// How the time grows with the cells and with the sinks.
fn growths() {
    println!();
    println!(
        "{:<44}{:>7}{:>7}{:>12}",
        "how it grows", "cells", "sinks", "proved"
    );
    for side in [8, 12, 16, 20, 25] {
        growth(side, 16);
    }
    for sinks in [1, 2, 4, 8, 16] {
        growth(20, sinks);
    }
    for side in [12, 20] {
        in_a_closet(side);
    }
}

fn load(name: &'static str, job: Job) -> Load {
    Load { name, job, runs: 5 }
}

/// The hall of the examples beside the published Rust, and how the time grows up to it.
pub fn bench_halls(only: &[String]) {
    if !only.iter().any(|word| word == "growth") {
        println!(
            "{:<44}{:>7}{:>10}{:>12}{:>14}{:>9}",
            "halls", "cells", "occupied", "proved", "published", "faster"
        );
        let hall = include_bytes!("../../../examples/hall.sheet");
        let job = Job::read(hall).expect("the hall's sheet");
        measure(&load("the hall 300x8x27", job));
    }
    println!();
    println!(
        "{:<44}{:>7}{:>7}{:>12}{:>14}",
        "how it grows", "cells", "sinks", "proved", "memory lent"
    );
    for wide in [20, 38, 75, 150, 300] {
        hall_growth([wide, 8, 27]);
    }
    for side in [16, 20, 25, 32, 40] {
        hall_growth([side; 3]);
    }
}

/// The proved tree's time in an open hall, at a node limit that always suffices; and how much memory it was lent.
fn hall_growth(sides: [u16; 3]) {
    let mut job = open(sides, 0);
    let cells: usize = sides.iter().map(|side| usize::from(*side)).product();
    job.config.node_limit = 5 * cells as u32;
    job.version = job.lowest(Version::KNOWN);
    let (sheet, mut lent) = sheet_of(&job);
    let time = proved_time(5, &sheet, &mut lent, 0);
    let [wide, high, deep] = sides;
    println!(
        "{:<44}{cells:>7}{:>7}{:>9.3} ms{:>11.1} MB",
        format!("open {wide}x{high}x{deep}"),
        job.sinks.len(),
        time.as_secs_f64() * 1e3,
        lent_bytes(&lent) as f64 / 1e6
    );
}

fn lent_bytes(lent: &TreeMemory) -> usize {
    let bytes = [
        &lent.occupied,
        &lent.repeaters,
        &lent.kinds,
        &lent.blocked,
        &lent.classes,
        &lent.joinable,
    ];
    let words = [
        &lent.branches,
        &lent.known,
        &lent.previous,
        &lent.path,
        &lent.best,
    ];
    let bytes: usize = bytes.iter().map(|slice| slice.len()).sum();
    let words: usize = words.iter().map(|slice| slice.len()).sum();
    bytes + 4 * words + 8 * (lent.queue.len() + lent.values.len())
}

/// Sixteen Wire sinks, four by four over the room's ground plan, on three levels above `floor`.
fn sinks([wide, high, deep]: [u16; 3], floor: u16) -> Vec<Port> {
    let part = |side: u16, k: u16| side * (2 * k + 1) / 8;
    (0..16)
        .map(|k: u16| {
            let level = floor + (k % 3) * (high - 1 - floor) / 3;
            wire([part(wide, k % 4), level, part(deep, k / 4)], facing::NONE)
        })
        .collect()
}

fn open(sides: [u16; 3], floor: u16) -> Job {
    let mut job = default_job(sides, &sinks(sides, floor));
    job.source = wire([0, floor, 0], facing::NONE);
    job
}

fn solid(node: u16, at: [u16; 3]) -> Block {
    block(node, at, kind::SOLID)
}

/// A floor of Solid, and a pillar to half the height at every fourth place, where no end stands.
fn ground_and_pillars(sides: [u16; 3]) -> Job {
    let [wide, high, deep] = sides;
    let mut job = open(sides, 1);
    let mut blocks = Vec::new();
    for x in 0..wide {
        for z in 0..deep {
            blocks.push(solid(0, [x, 0, z]));
            let ends = job.sinks.iter().map(|sink| &sink.port).chain([&job.source]);
            let free = ends.into_iter().all(|end| end.at[0] != x || end.at[2] != z);
            if x % 4 == 1 && z % 4 == 1 && free {
                blocks.extend((1..high / 2).map(|y| solid(1, [x, y, z])));
            }
        }
    }
    job.blocks = blocks;
    job
}

/// Four storeys: slabs of Solid, each but the lowest with a stairwell of eight by eight, in two corners by turns.
fn storeys(sides: [u16; 3]) -> Job {
    let [wide, high, deep] = sides;
    let mut job = open(sides, 1);
    for y in (0..high).step_by(4) {
        for x in 0..wide {
            for z in 0..deep {
                let well = if y % 8 == 4 {
                    x >= wide - 8 && z >= deep - 8
                } else {
                    x < 8 && z < 8
                };
                if y == 0 || !well {
                    job.blocks.push(solid(0, [x, y, z]));
                }
            }
        }
    }
    job
}

/// One lane that winds through the whole room: a wall at every other place, open at its ends by turns. A sink in every other lane.
fn serpentine(sides: [u16; 3]) -> Job {
    let [wide, high, deep] = sides;
    let lanes: Vec<Port> = (0..16)
        .map(|k: u16| wire([4 * k + 2, 0, (17 * k) % deep], facing::NONE))
        .collect();
    let mut job = default_job(sides, &lanes);
    job.source = wire([0, 0, 0], facing::NONE);
    for x in (1..wide).step_by(2) {
        let gap = if x % 4 == 1 { deep - 1 } else { 0 };
        for z in (0..deep).filter(|z| *z != gap) {
            job.blocks.extend((0..high).map(|y| solid(0, [x, y, z])));
        }
    }
    job
}

/// Solid in a quarter of the cells, but for those by the net's ends.
fn noise(sides: [u16; 3]) -> Job {
    let [wide, high, deep] = sides;
    let mut job = open(sides, 1);
    let mut rng = Rng::new(11);
    for x in 0..wide {
        for y in 0..high {
            for z in 0..deep {
                let ends = job.sinks.iter().map(|sink| &sink.port).chain([&job.source]);
                let near = ends
                    .into_iter()
                    .any(|end| (0..3).all(|i| end.at[i].abs_diff([x, y, z][i]) <= 1));
                if rng.below(4) == 0 && !near {
                    job.blocks.push(solid(0, [x, y, z]));
                }
            }
        }
    }
    job
}

/// A floor, some three hundred single blocks, and four other nets that lie across the room in straight lines.
fn blocks_and_other_nets(sides: [u16; 3]) -> Job {
    let [wide, high, deep] = sides;
    let mut job = open(sides, 1);
    let own: Vec<[u16; 3]> = job
        .sinks
        .iter()
        .map(|sink| &sink.port)
        .chain([&job.source])
        .map(|end| end.at)
        .collect();
    let near = |at: [u16; 3]| {
        own.iter()
            .any(|end| (0..3).all(|i| end[i].abs_diff(at[i]) <= 2))
    };
    for x in 0..wide {
        for z in 0..deep {
            job.blocks.push(solid(0, [x, 0, z]));
        }
    }
    let mut rng = Rng::new(7);
    let mut below = |side: u16| rng.below(usize::from(side)) as u16;
    let mut singles: Vec<[u16; 3]> = (0..300)
        .map(|_| [below(wide), 1 + below(high - 1), below(deep)])
        .filter(|at| !near(*at))
        .collect();
    singles.sort_unstable();
    singles.dedup();
    job.blocks
        .extend(singles.into_iter().map(|at| solid(1, at)));
    for z in [6, 14, 18, 26] {
        let lane = (0..wide - 6).map(|x| [x, 3, z]).filter(|at| !near(*at));
        job.conductors.extend(lane);
    }
    job
}

pub fn sheet_of(job: &Job) -> (Sheet, TreeMemory) {
    let cells: usize = job.sides.iter().map(|side| usize::from(*side)).product();
    let sheet = Sheet {
        queue: 12 * cells as u32,
        branch: 16_384,
        lent: cells as u32,
        bytes: job.bytes(),
    };
    let lent = proved::tree_memory(cells, 16_384, 24 * cells, TREE_VALUES, 0);
    (sheet, lent)
}

fn proved_time(runs: usize, sheet: &Sheet, lent: &mut TreeMemory, number: u32) -> Duration {
    best(runs, || {
        assert_eq!(lent.call(black_box(&sheet.bytes)), number, "its number");
    })
}

/// Prints one line; the answers of both must be the same, in every lent byte.
fn measure(load: &Load) {
    let (sheet, mut lent) = sheet_of(&load.job);
    let (job, room) = sheet.judge(MOST_CELLS).expect("a lawful sheet");
    let proved = proved_time(load.runs, &sheet, &mut lent, 0);
    print!(
        "{:<44}{:>7}{:>10}{:>9.2} ms",
        load.name,
        room.cells(),
        lent.values[2],
        proved.as_secs_f64() * 1e3,
    );
    // The published Rust may take minutes.
    std::io::stdout().flush().expect("standard output");
    let published_job = PublishedJob::new(&room, &job);
    let mut net = None;
    let published = best(1, || {
        net = Some(black_box(published_job.route()).expect("a tree"));
    });
    let due = tree_of(&room, &net.expect("a tree")).expect("a tree of this room");
    tree_differs(&sheet, &due, Call::Plain, lent.clone())
        .unwrap_or_else(|difference| panic!("{difference}"));
    println!(
        "{:>11.1} ms{:>8.1}x",
        published.as_secs_f64() * 1e3,
        published.as_secs_f64() / proved.as_secs_f64(),
    );
}

/// The proved tree's time in an open room of this side, for so many sinks.
fn growth(side: u16, count: usize) {
    let mut job = open([side; 3], 0);
    job.sinks.truncate(count);
    growth_line(&format!("open {side}x{side}x{side}"), &job, 0);
}

/// The same where the last of sixteen sinks stands in a closet: each goal is searched for, and number 14 said.
fn in_a_closet(side: u16) {
    growth_line(&closet_name(side), &closet_job(side), 14);
}

fn closet_name(side: u16) -> String {
    format!("the last in a closet {side}x{side}x{side}")
}

/// Trees that stop at a sink in a closet.
pub fn closets() -> Vec<(String, Job)> {
    [8, 12, 20]
        .map(|side| (closet_name(side), closet_job(side)))
        .into()
}

fn closet_job(side: u16) -> Job {
    let mut job = open([side; 3], 0);
    let at = job.sinks[15].port.at;
    let round = |i: usize| at[i].saturating_sub(1)..=(at[i] + 1).min(side - 1);
    for x in round(0) {
        for y in round(1) {
            let walls = round(2).filter(|z| [x, y, *z] != at);
            job.blocks.extend(walls.map(|z| solid(0, [x, y, z])));
        }
    }
    job
}

fn growth_line(name: &str, job: &Job, number: u32) {
    let (sheet, mut lent) = sheet_of(job);
    let time = proved_time(15, &sheet, &mut lent, number);
    println!(
        "{name:<44}{:>7}{:>7}{:>9.3} ms",
        job.sides
            .iter()
            .map(|side| usize::from(*side))
            .product::<usize>(),
        job.sinks.len(),
        time.as_secs_f64() * 1e3
    );
}
