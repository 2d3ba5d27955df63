//! Lists of nets: where their sheets end, which refusal comes first, what a net sees of the others, and what random lists hold.

use std::collections::BTreeMap;

use cases::generate::{Profile, random_list};
use cases::lists::{LENGTHS, List, NetRefusal, sheets};
use cases::rng::Rng;
use cases::room::{facing, kind};
use cases::samples::{block, default_job, wire};
use cases::sheet::{Job, Sheet, TreeAnswer};
use cases::tree::Mode;
use cases::{Refusal, examples};

/// A net of an empty room, from a cell to another, which faces so.
fn net(sides: [u16; 3], from: [u16; 3], to: [u16; 3], facing: u8) -> Job {
    let mut job = default_job(sides, &[wire(to, facing)]);
    job.source.at = from;
    job
}

fn list(jobs: &[Job]) -> List {
    List::ample(Mode::Published, jobs)
}

fn refused(net: usize, number: u8, detail: u32) -> Option<NetRefusal> {
    let refusal = Refusal::new(number, detail);
    Some(NetRefusal { net, refusal })
}

#[test]
fn examples_of_lists() {
    for (place, (name, case, answer)) in examples::lists().into_iter().enumerate() {
        assert_eq!(case.plain_answer(), answer, "{place}: {name}");
    }
}

#[test]
fn a_sheet_ends_where_its_length_says() {
    let job = net([3, 1, 1], [0, 0, 0], [2, 0, 0], facing::NONE).bytes();
    let two = [job.clone(), job.clone()].concat();
    assert_eq!(sheets(&two), [&job[..], &job[..]]);
    assert_eq!(
        sheets(&two[..two.len() - 1]),
        [&job[..], &job[..job.len() - 1]]
    );
    assert_eq!(sheets(&[&job[..], &[7, 0]].concat()), [&job[..], &[7, 0]]);
    assert_eq!(sheets(&[]), [&[] as &[u8]]);
}

#[test]
fn a_list_of_one_is_its_tree() {
    for seed in 0..300 {
        let list = random_list(&mut Rng::for_case(71, seed), Profile::Small);
        let bytes = sheets(&list.bytes)[0].to_vec();
        let lengths = list.lengths.min(LENGTHS as u32);
        let one = List {
            bytes: bytes.clone(),
            lengths,
            ..list
        };
        let sheet = Sheet {
            queue: one.queue,
            branch: one.branch,
            lent: one.lent,
            bytes,
        };
        let due = match (lengths as usize) < LENGTHS {
            true => continue,
            false => sheet.plain_answer_in(one.mode),
        };
        let found = match one.plain_nets() {
            Ok(routed) => routed.list[0].1.answer(),
            Err(NetRefusal { net, refusal }) => {
                assert_eq!(net, 0);
                TreeAnswer::Refused(refusal)
            }
        };
        assert_eq!(found, due);
    }
}

#[test]
fn two_nets_in_one_cell() {
    let alone = net([1, 1, 1], [0, 0, 0], [0, 0, 0], facing::NONE);
    let without_sinks = Job {
        sinks: Vec::new(),
        ..alone
    };
    let two = [without_sinks.clone(), without_sinks];
    assert_eq!(list(&two).plain_nets().err(), refused(1, 16, 0));
    let sides = [1, 2, 3];
    let first = net(sides, [0, 0, 0], [0, 1, 1], facing::SOUTH);
    let second = net(sides, [0, 1, 0], [0, 0, 1], facing::NONE);
    assert_eq!(list(&[first, second]).plain_nets().err(), refused(1, 16, 1));
}

#[test]
fn all_of_a_net_is_judged_before_the_next() {
    let sides = [3, 2, 1];
    let good = net(sides, [0, 0, 0], [2, 0, 0], facing::NONE);
    let outside = net(sides, [0, 0, 0], [2, 0, 0], facing::EAST);
    let number = |jobs: &[Job]| list(jobs).plain_nets().err();
    assert_eq!(
        number(&[outside.clone(), net([9, 9, 9], [0; 3], [0; 3], 0)]),
        refused(0, 9, 1)
    );
    assert_eq!(number(&[good.clone(), outside.clone()]), refused(1, 9, 1));
    // other sides and other blocks are number 1, before all else of that sheet
    assert_eq!(
        number(&[good.clone(), net([65, 2, 1], [0; 3], [0; 3], 0)]),
        refused(1, 1, 0)
    );
    let mut built = good.clone();
    built.blocks.push(block(0, [1, 1, 0], kind::SOLID));
    assert_eq!(number(&[good.clone(), built.clone()]), refused(1, 1, 0));
    built.blocks.push(block(0, [1, 1, 0], kind::SOLID));
    assert_eq!(number(&[built, good.clone()]), refused(0, 7, 3));
    // lengths are asked for net by net: before that net's 7 to 9, and behind its 1 to 5
    let short = List {
        lengths: 31,
        ..list(&[good.clone(), outside])
    };
    assert_eq!(short.plain_nets().err(), refused(1, 6, 0));
    let empty = List {
        bytes: Vec::new(),
        ..list(&[good])
    };
    assert_eq!(empty.plain_nets().err(), refused(0, 1, 0));
}

#[test]
fn a_net_sees_those_before_it_and_the_ends_of_all() {
    // one row of nine: what ends in the middle keeps both neighbours free, before its turn and after it
    let sides = [9, 1, 1];
    let across = net(sides, [0, 0, 0], [8, 0, 0], facing::NONE);
    let middle = net(sides, [4, 0, 0], [4, 0, 0], facing::NONE);
    let nets = list(&[across.clone(), middle.clone()]).plain_nets();
    assert_eq!(nets.err(), refused(0, 14, 8));
    assert_eq!(
        list(&[middle, across]).plain_nets().err(),
        refused(1, 14, 8)
    );
    // the branch buffer is shared
    let sides = [9, 1, 5];
    let one = net(sides, [0, 0, 0], [8, 0, 0], facing::NONE);
    let other = net(sides, [0, 0, 4], [8, 0, 4], facing::NONE);
    let both = list(&[one, other]);
    assert_eq!(
        both.plain_nets()
            .unwrap()
            .owners
            .iter()
            .filter(|owner| **owner == 2)
            .count(),
        9
    );
    assert_eq!(
        List {
            branch: 18,
            ..both.clone()
        }
        .plain_nets()
        .map(|_| ()),
        Ok(())
    );
    assert_eq!(
        List { branch: 17, ..both }.plain_nets().err(),
        refused(1, 15, 1)
    );
}

#[test]
fn random_lists_are_of_all_sorts() {
    let mut numbers: BTreeMap<u8, usize> = BTreeMap::new();
    let mut nets: BTreeMap<usize, usize> = BTreeMap::new();
    let mut later = 0;
    let count = 3_000;
    for index in 0..count {
        let list = random_list(&mut Rng::for_case(5, index), Profile::Small);
        let answer = list.plain_nets();
        let number = answer
            .as_ref()
            .map_or_else(|refused| refused.refusal.number, |_| 0);
        if let Ok(routed) = &answer {
            *nets.entry(routed.list.len()).or_default() += 1;
        }
        later += usize::from(answer.is_err_and(|refused| refused.net > 0));
        *numbers.entry(number).or_default() += 1;
    }
    println!("{numbers:?}, {later} of them not of net 0; nets: {nets:?}");
    assert!((1..=8).all(|count| nets.contains_key(&count)), "{nets:?}");
    for number in [0, 1, 2, 3, 4, 5, 6, 7, 8, 9, 13, 14, 15, 16] {
        assert!(
            numbers.get(&number).is_some_and(|found| *found > 0),
            "{number}: {numbers:?}"
        );
    }
    let judged: usize = (1..=9).filter_map(|number| numbers.get(&number)).sum();
    assert!(
        judged * 10 > count as usize && judged * 3 < count as usize,
        "{numbers:?}"
    );
    assert!(numbers[&0] * 4 > count as usize, "{numbers:?}");
    assert!(later > 200);
}
