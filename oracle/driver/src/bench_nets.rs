//! Times of lists of nets: the proved function through its archive, and the published Rust.
//!
//! A time is the processor time of this thread, the least of several runs. The proved function's has everything in it, from the list's bytes to the
//! laid room and cleared memory. For the published Rust the circuit in its Solid shell and the other jobs' protected cells are there before; timed are
//! `MultiNetRouting::resources` and `route_net_tree` net by net, and `materialize_multinet` over the nets, with wire shapes that a stand-in tells.

use std::hint::black_box;
use std::io::Write;
use std::time::Duration;

use cases::laying::lay_all;
use cases::lists::Judged;
use cases::nets::ListAnswer;
use cases::room::{facing, kind};
use cases::samples::{block, default_job, wire};
use cases::sheet::{Block, Job};
use cases::tree::{Mode, Net};
use checks::{Short, nets_fault};
use dustroute::lent::{NetsLengths, NetsMemory};
use oracle::{List, PublishedList, Rng};
use shapes::{Laying, lay_published};

use crate::bench::best;

const RUNS_PUBLISHED: usize = 5;

struct Load {
    name: &'static str,
    list: List,
    runs: usize,
}

pub fn bench() {
    println!(
        "{:<28}{:>7}{:>6}{:>10}{:>13}{:>15}{:>13}{:>9}",
        "lists", "cells", "nets", "occupied", "proved", "routed by Rust", "laid by it", "faster"
    );
    let load = |name, runs, jobs: Vec<Job>| Load {
        name,
        list: List::ample(Mode::Published, &jobs),
        runs,
    };
    for load in [
        load("three nets 9x3x9", 200, three_nets()),
        load("ten nets, open 32x16x32", 10, ten_nets(Vec::new())),
        load(
            "ten nets, blocks 32x16x32",
            10,
            ten_nets(floor_and_blocks()),
        ),
    ] {
        measure(&load);
    }
}

const HALL: [u16; 3] = [32, 16, 32];

/// Three nets of a small room, which cross.
fn three_nets() -> Vec<Job> {
    let ends = [
        ([0, 0, 4], [[8, 0, 4], [4, 0, 2]]),
        ([4, 0, 0], [[4, 0, 8], [8, 0, 1]]),
        ([0, 0, 0], [[0, 0, 2], [0, 0, 8]]),
    ];
    ends.map(|(from, to)| net([9, 3, 9], from, to)).into()
}

/// Ten nets of two sinks each, on a level above the floor: from one wall to the place of another net at the opposite wall, and to the middle.
fn ten_nets(blocks: Vec<Block>) -> Vec<Job> {
    let lane = |k: u16| 3 * k + 1;
    let job = |k: u16| {
        let to = [[30, 1, lane(k ^ 1)], [16, 1, lane(k)]];
        let mut job = net(HALL, [1, 1, lane(k)], to);
        job.blocks.clone_from(&blocks);
        job
    };
    (0..10).map(job).collect()
}

fn net(sides: [u16; 3], from: [u16; 3], to: [[u16; 3]; 2]) -> Job {
    let mut job = default_job(sides, &to.map(|at| wire(at, facing::NONE)));
    job.source.at = from;
    job
}

/// A floor of Solid, and some three hundred single blocks off the ends of all nets.
fn floor_and_blocks() -> Vec<Block> {
    let [wide, high, deep] = HALL;
    let jobs = ten_nets(Vec::new());
    let ends: Vec<[u16; 3]> = jobs
        .iter()
        .flat_map(|job| {
            let sinks = job.sinks.iter().map(|sink| sink.port.at);
            sinks.chain([job.source.at])
        })
        .collect();
    let is_near = |at: [u16; 3]| {
        let mut ends = ends.iter();
        ends.any(|end| (0..3).all(|axis| end[axis].abs_diff(at[axis]) <= 2))
    };
    let floor = (0..wide).flat_map(|x| (0..deep).map(move |z| [x, 0, z]));
    let mut rng = Rng::new(7);
    let mut below = |side: u16| rng.below(usize::from(side)) as u16;
    let mut singles: Vec<[u16; 3]> = (0..300)
        .map(|_| [below(wide), 1 + below(high - 1), below(deep)])
        .filter(|at| !is_near(*at))
        .collect();
    singles.sort_unstable();
    singles.dedup();
    let solid = |(node, at)| block(node, at, kind::SOLID);
    let floor = floor.map(|at| (0, at));
    floor
        .chain(singles.into_iter().map(|at| (1, at)))
        .map(solid)
        .collect()
}

/// Prints one line; the answers of both must be the same, in every lent byte.
fn measure(load: &Load) {
    let list = &load.list;
    let due = list.plain_answer();
    let ListAnswer::Nets(laid) = &due else {
        panic!("{}: {due:?}", load.name)
    };
    let proved = proved_time(load);
    assert_eq!(nets_fault(list, &due, 0, Short::Some), None);
    print!(
        "{:<28}{:>7}{:>6}{:>10}{:>10.3} ms",
        load.name,
        laid.kinds.len(),
        laid.nets.len(),
        laid.owners.iter().filter(|owner| **owner > 0).count(),
        proved.as_secs_f64() * 1e3,
    );
    // The published Rust takes a while.
    std::io::stdout().flush().expect("standard output");
    let (routed, materialized) = published_times(&list.judge().expect("a lawful list"), &due);
    println!(
        "{:>12.1} ms{:>10.1} ms{:>8.1}x",
        routed.as_secs_f64() * 1e3,
        materialized.as_secs_f64() * 1e3,
        (routed + materialized).as_secs_f64() / proved.as_secs_f64(),
    );
}

fn proved_time(load: &Load) -> Duration {
    let list = &load.list;
    let mut memory = NetsMemory::new(NetsLengths {
        cells: list.lent as usize,
        nets: list.lengths as usize / 16,
        places: list.queue as usize,
        branch_cells: 16_384,
    });
    best(load.runs, || {
        assert_eq!(memory.call(0, black_box(&list.bytes)), 0, "its number");
    })
}

/// How long the published Rust takes to route the nets and to lay them.
fn published_times(judged: &Judged, due: &ListAnswer) -> (Duration, Duration) {
    let list = PublishedList::new(judged).expect("a lawful list");
    let mut nets = None;
    let routed = best(RUNS_PUBLISHED, || nets = Some(black_box(list.route())));
    let nets = nets.expect("it ran").expect("no panic").expect("its nets");
    let nets = list.nets(nets).expect("nets of this room");
    let nets: Vec<(Job, Net)> = judged.jobs.iter().cloned().zip(nets).collect();
    let laying = Laying::new(&judged.room, &nets);
    let materialized = best(RUNS_PUBLISHED, || {
        black_box(laying.run()).expect("a laid room");
    });
    let told = |laid: cases::laying::LaidRoom| (laid.kinds, laid.facings);
    let room = told(lay_published(&judged.room, &nets).expect("no overlap"));
    assert_eq!(
        room,
        told(lay_all(&judged.room, &nets).expect("no overlap"))
    );
    let ListAnswer::Nets(laid) = due else {
        panic!("a refusal")
    };
    assert_eq!(room, (laid.kinds.clone(), laid.facings.clone()));
    (routed, materialized)
}
