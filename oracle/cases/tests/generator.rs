//! The generator: the same seed gives the same cases, and they cover what they should.

use std::collections::BTreeSet;

use cases::files::write_bare;
use cases::generate::{Profile, random_search, random_sheet, searches, sheets};
use cases::rng::Rng;

#[test]
fn the_first_draws_are_those_of_splitmix64() {
    let mut rng = Rng::new(1_234_567);
    let draws = [(); 3].map(|()| rng.draw());
    assert_eq!(
        draws,
        [
            6_457_827_717_110_365_317,
            3_203_168_211_198_807_973,
            9_817_491_932_198_370_423
        ]
    );
}

#[test]
fn the_same_seed_gives_the_same_cases() {
    let files = |seed| {
        let searches = searches(seed, 200, Profile::Mixed);
        (
            write_bare(&searches),
            write_bare(&sheets(seed, 60, Profile::Mixed)),
        )
    };
    assert_eq!(files(5), files(5));
    assert!(files(5) != files(6));
}

#[test]
fn a_case_can_be_made_by_itself() {
    let searches = searches(5, 50, Profile::Mixed);
    let mut rng = Rng::for_case(5, 49);
    assert_eq!(random_search(&mut rng, Profile::Mixed), searches[49]);
    let sheets = sheets(5, 20, Profile::Mixed);
    let mut rng = Rng::for_case(5, 19);
    assert_eq!(random_sheet(&mut rng, Profile::Mixed), sheets[19]);
}

#[test]
fn every_profile_makes_cases() {
    for (name, profile) in Profile::NAMES {
        assert_eq!(Profile::named(name), Some(profile));
        for case in searches(3, 3, profile) {
            case.plain_answer();
        }
        for case in sheets(3, 3, profile) {
            case.plain_answer();
        }
    }
}

#[test]
fn every_number_is_met() {
    let searches = searches(11, 1_500, Profile::Tiny).into_iter();
    let found: BTreeSet<u8> = searches.map(|case| case.plain_answer().number()).collect();
    assert_eq!(found, BTreeSet::from([0, 2, 3, 4, 5, 6, 10, 11, 12, 13]));
    let sheets = sheets(11, 1_500, Profile::Tiny).into_iter();
    let found: BTreeSet<u8> = sheets.map(|case| case.plain_answer().number()).collect();
    let numbers = [0, 1, 2, 3, 4, 5, 6, 7, 8, 9, 13, 14, 15];
    assert_eq!(found, BTreeSet::from(numbers));
}
