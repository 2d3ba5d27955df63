//! Random routes through the proved drawing: against the oracle, over lent memory full of rubbish.

use cases::text::drawing_lines;
use checks::drawing_fault;
use oracle::{Rng, check_drawing, random_drawing};

use crate::compare::{Differences, Draw};

/// Compares `count` random drawings and prints a summary; false if anything differs.
pub fn compare(draw: &Draw) -> bool {
    let mut by_number = [[0_u64; 7]; 2];
    let [mut repeaters, mut unwired] = [0_u64; 2];
    let mut differences = Differences::default();
    for index in 0..draw.count {
        let case = random_drawing(&mut Rng::for_case(draw.seed, index), draw.profile);
        let due = if draw.published {
            match check_drawing(&case) {
                Ok(due) => due,
                Err(apart) => {
                    differences.add(
                        &draw.name(index),
                        "the oracle is at odds with itself",
                        &apart.to_string(),
                    );
                    continue;
                }
            }
        } else {
            case.plain_answer()
        };
        by_number[0][usize::from(due.laid)] += 1;
        by_number[1][usize::from(due.listed)] += 1;
        repeaters += due.repeaters.len() as u64;
        let lost = |cell: &u32| case.kinds[*cell as usize] == 0 && due.kinds[*cell as usize] != 3;
        unwired += u64::from(due.laid == 0 && case.path.iter().any(lost));
        if let Some(what) = drawing_fault(&case, &due, index as u8 | 1, index as usize % 4) {
            differences.add(
                &draw.name(index),
                &format!("not as due: {what}"),
                &drawing_lines(&case),
            );
        }
    }
    for (words, counts) in ["routes drawn", "lists of repeaters"].iter().zip(by_number) {
        let counts = (0..).zip(counts).filter(|(_, count)| *count > 0);
        let counts: Vec<String> = counts
            .map(|(number, count)| format!("{number}: {count}"))
            .collect();
        println!(
            "{} {words} of seed {}, by number {}",
            draw.count,
            draw.seed,
            counts.join(", ")
        );
    }
    println!("{repeaters} repeaters; on {unwired} paths a support took the place of wire");
    differences.told()
}
