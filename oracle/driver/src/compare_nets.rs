//! Random lists of nets: the proved function against the plain routing and laying in both modes, or in the published one against the published
//! Rust as well; with all lent memory.

use cases::stats::{Tally, count_list};
use cases::text::list_lines;
use cases::tree::Mode;
use checks::{Short, nets_fault};
use oracle::{List, ListAnswer, Rng, check_list, check_unripped, random_list};

use crate::compare::{Differences, Draw};

/// Compares `count` random lists and prints a summary; false if anything differs.
pub fn compare(draw: &Draw) -> bool {
    let mut tally = Tally::default();
    let mut differences = Differences::default();
    let mut unripped = 0;
    for index in 0..draw.count {
        let drawn = random_list(&mut Rng::for_case(draw.seed, index), draw.profile);
        for case in in_modes(draw, drawn) {
            let found = expected_answer(draw, &case, &mut unripped).and_then(|expected| {
                count_list(&mut tally, &case, &expected);
                let fault = nets_fault(&case, &expected, index, Short::Some);
                fault.map_or(Ok(()), Err)
            });
            if let Err(what) = found {
                differences.add(&draw.name(index), &what, &list_lines(&case));
            }
        }
    }
    print!("{}", tally.lines());
    if draw.published {
        println!("{unripped} of them are also the nets of route_jobs_ripup");
    }
    let modes = if draw.published { "" } else { " in both modes" };
    println!("{} lists of seed {}{modes}", draw.count, draw.seed);
    differences.told()
}

/// The list in both modes, or in that of the published Rust.
fn in_modes(draw: &Draw, list: List) -> Vec<List> {
    let in_mode = |mode| List {
        mode,
        ..list.clone()
    };
    match draw.published {
        true => vec![in_mode(Mode::Published)],
        false => vec![in_mode(Mode::Published), in_mode(Mode::Strict)],
    }
}

/// The expected answer. Lists whose nets `route_jobs_ripup` gives, too, are counted.
fn expected_answer(draw: &Draw, case: &List, unripped: &mut u64) -> Result<ListAnswer, String> {
    if !draw.published {
        return Ok(case.plain_answer());
    }
    let told = |difference: oracle::Disagreement| difference.to_string();
    *unripped += u64::from(check_unripped(case).map_err(told)?);
    check_list(case).map_err(told)
}
