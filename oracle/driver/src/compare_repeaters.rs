//! Random nets through the one call for repeaters: against the published Rust's two functions in turn, over lent memory full of rubbish.

use cases::stats::{Tally, count_plan};
use cases::text::plan_lines;
use checks::plan_fault;
use oracle::{Rng, check_repeaters, random_plan};

use crate::compare::{Differences, Draw};

/// Compares `count` random nets and prints a summary; false if anything differs.
pub fn compare(draw: &Draw) -> bool {
    let mut tally = Tally::default();
    let mut differences = Differences::default();
    for index in 0..draw.count {
        let case = random_plan(&mut Rng::for_case(draw.seed, index), draw.profile);
        let due = if draw.published {
            match check_repeaters(&case) {
                Ok(due) => due,
                Err(apart) => {
                    let what = "the oracle is at odds with itself";
                    differences.add(&draw.name(index), what, &apart.to_string());
                    continue;
                }
            }
        } else {
            case.plain_answer()
        };
        count_plan(&mut tally, &case, &due);
        if let Some(what) = plan_fault(&case, &due, index as u8 | 1, index as usize % 4) {
            let what = format!("not as due: {what}");
            differences.add(&draw.name(index), &what, &plan_lines(&case));
        }
    }
    print!("{}", tally.lines());
    println!("{} nets of seed {}", draw.count, draw.seed);
    differences.told()
}
