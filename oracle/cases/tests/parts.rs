//! Parts of jobs, written by the plain writer and read by the plain reader; and each stored sheet taken apart and written again.

use cases::answers::{SHEETS, STRICT_SHEETS, TREE_WHYS};
use cases::examples;
use cases::files;
use cases::generate::{Profile, limit_sheets, writes};
use cases::parts::{Parts, PartsAnswer};
use cases::room::MOST_CELLS;
use cases::sheet::{Job, MOST_BYTES, Sheet};
use cases::strict::StrictSheet;
use cases::tree_why::TreeWhy;
use cases::version::Version;

#[test]
fn examples_of_parts() {
    for (name, case, answer) in examples::parts() {
        assert_eq!(case.plain_answer(), answer, "{name}");
    }
}

/// What was written is read as the parts that went in.
#[test]
fn parts_go_out_and_back() {
    let (mut sheets, mut refused) = (0, 0);
    for (profile, count) in [(Profile::Tiny, 4_000), (Profile::Mixed, 2_000)] {
        for case in writes(5, count, profile) {
            match case.plain_answer() {
                PartsAnswer::Sheet(bytes) => {
                    let job = Job::read(&bytes).unwrap();
                    assert!(job.judge(MOST_CELLS).is_ok());
                    let lent = case.lent;
                    assert_eq!(
                        Parts {
                            lent,
                            ..Parts::of(&job)
                        },
                        case
                    );
                    assert_eq!(job.bytes(), bytes);
                    sheets += 1;
                }
                PartsAnswer::Refused(_) => refused += 1,
            }
        }
    }
    assert!(sheets > 3_000 && refused > 1_000, "{sheets} {refused}");
}

/// At 60,000 bytes a sheet is written, at 60,001 it is not.
#[test]
fn the_longest_sheet() {
    let (_, mut case, _) = examples::parts().swap_remove(0);
    case.lent = u32::MAX;
    // 45 bytes in version 1; 19,985 positions are 59,955 more
    case.lists[2] = vec![0; 3 * 19_985];
    assert_eq!(case.size(), MOST_BYTES);
    assert!(matches!(case.plain_answer(), PartsAnswer::Sheet(bytes) if bytes.len() == MOST_BYTES));
    case.lists[2].extend([0; 3]);
    assert_eq!(case.plain_answer().number(), 1);
    // 7 bytes more and 6 fewer
    case.lists[2].truncate(3 * 19_983);
    case.blocks = vec![0, 0, 0, 0, 1, 0];
    assert_eq!(
        (case.size(), case.plain_answer().number()),
        (MOST_BYTES + 1, 1)
    );
}

/// In version 2 a sheet has a byte more, and one for each sink: the same job is too long with a tail of 3.
#[test]
fn the_longest_sheet_of_version_2() {
    let (_, mut case, _) = examples::parts().swap_remove(0);
    case.lent = u32::MAX;
    case.lists[2] = vec![0; 3 * 19_985];
    assert_eq!((case.size(), case.plain_answer().number()), (MOST_BYTES, 0));
    case.sinks[5] = 3;
    assert_eq!(
        (case.size(), case.plain_answer().number()),
        (MOST_BYTES + 2, 1)
    );
    case.lists[2].truncate(3 * 19_984);
    assert_eq!(
        (case.size(), case.plain_answer().number()),
        (MOST_BYTES - 1, 0)
    );
}

/// A sheet of its job's version gives its own bytes back, any other accepted sheet the same job.
fn given_back(case: &Sheet) -> Option<Version> {
    let (job, _) = case.judge(MOST_CELLS).ok()?;
    let PartsAnswer::Sheet(bytes) = Parts::of(&job).plain_answer() else {
        panic!("an accepted sheet is refused");
    };
    let lowest = job.lowest(Version::KNOWN);
    assert_eq!(bytes == case.bytes, job.version == lowest);
    let again = Job::read(&bytes).unwrap();
    assert_eq!(
        again,
        Job {
            version: lowest,
            ..job.clone()
        }
    );
    Some(job.version)
}

#[test]
fn sheets_of_both_versions_are_given_back() {
    let made = limit_sheets(9, 3_000, Profile::Tiny);
    let given: Vec<_> = made.iter().filter_map(|case| given_back(&case.0)).collect();
    let first = given.iter().filter(|version| **version == Version::ONE);
    assert!(first.count() > 300 && given.len() > 2_000);
}

/// An accepted sheet's parts, written, give its own bytes.
#[test]
fn stored_sheets_give_their_own_bytes() {
    let sheets = files::read::<Sheet>(&SHEETS.bytes()).unwrap().into_iter();
    let strict = files::read::<StrictSheet>(&STRICT_SHEETS.bytes()).unwrap();
    let whys = files::read::<TreeWhy>(&TREE_WHYS.bytes()).unwrap();
    let all = sheets
        .map(|(case, _)| case)
        .chain(strict.into_iter().map(|(case, _)| case.0))
        .chain(whys.into_iter().map(|(case, _)| case.sheet));
    let mut accepted = 0;
    for case in all {
        if let Ok((job, _)) = case.judge(MOST_CELLS) {
            assert_eq!(
                Parts::of(&job).plain_answer(),
                PartsAnswer::Sheet(case.bytes)
            );
            accepted += 1;
        }
    }
    assert!(accepted > 1_500, "{accepted}");
}
