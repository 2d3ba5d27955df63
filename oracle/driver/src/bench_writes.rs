//! Times of sheets written and read. Reading is what a tree does first: with no values lent it answers by its sheet alone, 6 for one
//! that is accepted. A time is as in the file bench.rs.

use std::hint::black_box;
use std::time::Duration;

use cases::parts::{Parts, PartsAnswer};
use cases::room::MOST_CELLS;
use cases::samples::{block, default_job, wire};
use cases::sheet::{Job, MOST_BYTES, MOST_SINKS};
use checks::{parts_of, sheet_memory};
use dustroute::lent::{TreeMemory, WRITE_VALUES};
use oracle::Rng;

use crate::bench::best;

const RUNS: usize = 25;
/// A run takes so many of a sheet: one alone is too short for the clock.
const TIMES: u32 = 20;
const SIDES: [u16; 3] = [64, 4, 64];

pub fn bench() {
    println!(
        "{:<32}{:>8}{:>22}{:>22}{:>22}{:>22}",
        "64x4x64", "bytes", "written", "read", "plain write", "plain read"
    );
    // sixteen sinks and nothing else are 120 bytes
    measure("no blocks", &job(0, 0));
    measure("1,000 blocks", &job(1_000, 0));
    measure(
        "as many blocks as there may be",
        &job((MOST_BYTES - 120) / 7, 0),
    );
    measure("as many positions", &job(0, (MOST_BYTES - 120) / 3));
}

/// A job of sixteen sinks, so many blocks and so many positions, at random.
fn job(blocks: usize, positions: usize) -> Job {
    let mut rng = Rng::new(7);
    let mut at = || SIDES.map(|side| rng.below(side.into()) as u16);
    let mut job = default_job(SIDES, &[wire([63, 0, 63], 0); MOST_SINKS]);
    job.blocks = (0..blocks)
        .map(|node| block(node as u16, at(), 1))
        .collect();
    for (place, at) in (0..positions).map(|place| (place, at())) {
        let lists = [
            &mut job.conductors,
            &mut job.clearances,
            &mut job.terminals,
            &mut job.reserved,
        ];
        lists
            .into_iter()
            .nth(place % 4)
            .expect("four lists")
            .push(at);
    }
    job
}

/// Prints one line: each time of one sheet, and the megabytes a second.
fn measure(name: &str, job: &Job) {
    let case = Parts::of(job);
    let PartsAnswer::Sheet(bytes) = case.plain_answer() else {
        panic!("{name} is not written")
    };
    let parts = parts_of(&case);
    let mut memory = sheet_memory(bytes.len(), WRITE_VALUES, 0);
    assert_eq!(memory.call(&parts), 0, "{name}");
    assert!(memory.sheet == bytes, "{name}");
    let mut tree = TreeMemory::new(0, 0, 0);
    tree.values.clear();
    assert_eq!(tree.call(&bytes), 6, "{name}");
    let times = [
        timed(|| {
            black_box(memory.call(black_box(&parts)));
        }),
        timed(|| {
            black_box(tree.call(black_box(&bytes)));
        }),
        timed(|| {
            black_box(black_box(&case).plain_answer());
        }),
        timed(|| {
            black_box(Job::read(black_box(&bytes)).is_ok_and(|job| job.judge(MOST_CELLS).is_ok()));
        }),
    ];
    let told = times.map(|time| {
        let rate = bytes.len() as f64 / time.as_secs_f64() / 1e6;
        format!("{:.1} us, {rate:.0} MB/s", time.as_secs_f64() * 1e6)
    });
    let [written, read, plain_written, plain_read] = told;
    println!(
        "{name:<32}{:>8}{written:>22}{read:>22}{plain_written:>22}{plain_read:>22}",
        bytes.len()
    );
}

fn timed(mut once: impl FnMut()) -> Duration {
    best(RUNS, || (0..TIMES).for_each(|_| once())) / TIMES
}
