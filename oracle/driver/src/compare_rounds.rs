//! Sheets of three versions: a random job in each of them, answered by the proved tree, then taken apart and written again by the proved
//! writer. The plain reader, router and writer say what is due.

use cases::generate::random_limit_sheet;
use cases::parts::{Parts, PartsAnswer};
use cases::room::MOST_CELLS;
use cases::sheet::Job;
use cases::text::sheet_lines;
use cases::version::Version;
use checks::{parts_of, sheet_due, sheet_memory};
use dustroute::lent::{TREE_VALUES, WRITE_VALUES};
use oracle::{Rng, Sheet};

use crate::compare::{Differences, Draw};
use crate::compare_trees::{Call, lengths, tree_differs};
use crate::proved::tree_memory;

/// How many sheets were refused, were written back as they were, and were written in a lower version.
#[derive(Default)]
struct Rounds {
    refused: u64,
    own: [u64; 4],
    lower: [u64; 4],
}

/// Sends `count` random jobs round and prints a summary; false if anything differs.
pub fn compare(draw: &Draw) -> bool {
    let mut rounds = Rounds::default();
    let mut differences = Differences::default();
    for index in 0..draw.count {
        let case = random_limit_sheet(&mut Rng::for_case(draw.seed, index), draw.profile).0;
        for sheet in in_versions(&case) {
            if let Err(what) = goes_round(&sheet, &mut rounds, index as u8) {
                differences.add(&draw.name(index), &what, &sheet_lines(&sheet));
            }
        }
    }
    let Rounds { refused, own, lower } = &rounds;
    println!(
        "{} jobs of seed {}; by version, sheets that give their own bytes back: {:?}, the same job: {:?}; refused {refused}",
        draw.count, draw.seed, &own[1..], &lower[1..]
    );
    differences.told()
}

/// The sheet, and the same job in each other version; where that one has no room for a number, what its bytes come to.
fn in_versions(case: &Sheet) -> Vec<Sheet> {
    let Ok(job) = Job::read(&case.bytes) else {
        return vec![case.clone()];
    };
    let versions = Version::KNOWN.iter();
    let sheet = |version: &Version| Sheet {
        bytes: Job { version: *version, ..job.clone() }.bytes(),
        ..case.clone()
    };
    versions.map(sheet).collect()
}

/// How the tree's answer or the written sheet differs from what is due, if it does. All memory is full of rubbish before.
fn goes_round(case: &Sheet, rounds: &mut Rounds, salt: u8) -> Result<(), String> {
    let [cells, branch, queue] = lengths(case);
    let lent = tree_memory(cells, branch, queue, TREE_VALUES, salt | 1);
    tree_differs(case, &case.plain_answer(), Call::Plain, lent)?;
    let judged = Job::read(&case.bytes).and_then(|job| job.judge(MOST_CELLS).map(|_| job));
    let Ok(job) = judged else {
        rounds.refused += 1;
        return Ok(());
    };
    let written = written(&Parts::of(&job), salt)?;
    let lowest = job.lowest(Version::KNOWN);
    if job.version == lowest {
        rounds.own[usize::from(lowest.number)] += 1;
        let same = written == case.bytes;
        return same.then_some(()).ok_or("its own bytes don't come back".into());
    }
    rounds.lower[usize::from(job.version.number)] += 1;
    let version = lowest;
    let same = Job::read(&written) == Ok(Job { version, ..job });
    same.then_some(()).ok_or("another job comes back".into())
}

/// The proved writer's sheet of these parts, which the plain writer gives, too.
fn written(parts: &Parts, salt: u8) -> Result<Vec<u8>, String> {
    let due = parts.plain_answer();
    let before = sheet_memory(parts.lent as usize, WRITE_VALUES, salt | 1);
    let mut after = before.clone();
    let number = after.call(&parts_of(parts));
    match &due {
        PartsAnswer::Sheet(bytes) if number == 0 && after == sheet_due(&before, &due) => {
            Ok(bytes.clone())
        }
        _ => Err(format!("written with number {number}, due {}", due.number())),
    }
}
