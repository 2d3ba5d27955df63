//! The published Rust against docs/RULES.md and against the plain router.

use cases::files::write_answered;
use cases::room::MOST_CELLS;
use cases::samples::{HEX_SHEET, HEX_SHEET_LINES, Sample, default_job, samples};
use cases::smallest::{Input, points};
use cases::text::{parse_hex, tree_answer_lines};
use cases::tree::{Limits, route_net_tree};
use cases::{answers, examples, generate};
use oracle::{
    Profile, Rng, answer_drawing, answer_list, answer_search, answer_sheet, answer_strict,
    answer_tree_why, answer_why, check_plan, check_route, check_search, check_unripped,
};

#[test]
fn samples_of_document_01() {
    for (name, sample) in samples() {
        match sample {
            Sample::Search(case, answer) => assert_eq!(answer_search(&case), answer, "{name}"),
            Sample::Sheet(case, answer) => assert_eq!(answer_sheet(&case), answer, "{name}"),
        }
    }
}

#[test]
fn the_hex_sheet_is_printed() {
    let answer = check_route(parse_hex(HEX_SHEET).unwrap()).unwrap();
    assert_eq!(tree_answer_lines(&answer), HEX_SHEET_LINES);
}

/// All but the largest, which takes the published Rust up to a minute.
#[test]
fn the_smallest_inputs_have_one_answer() {
    for point in points().iter().filter(|point| point.input.cells() < 1_000) {
        let agreed = match &point.input {
            Input::Search(search) => check_search(search).is_ok(),
            Input::Job(job) => check_route(job.bytes()).is_ok(),
        };
        assert!(agreed, "{}", point.name);
    }
}

#[test]
fn examples_of_lists() {
    for (name, case, answer) in examples::lists() {
        assert_eq!(answer_list(&case), answer, "{name}");
    }
}

/// Two nets one right above the other: the Rust that rips up accepts neither behind the other, for a support of one lies in a cell of the other.
#[test]
fn a_net_with_no_wire_is_not_accepted() {
    for name in [
        "a net laid with no wire",
        "the other order: wire lies on wire",
    ] {
        let mut lists = examples::lists().into_iter();
        let (_, case, _) = lists.find(|(told, _, _)| *told == name).unwrap();
        assert!(!check_unripped(&case).unwrap(), "{name}");
    }
}

/// Routed and laid; and where `route_jobs_ripup` takes the same order and rips up nothing, its nets too.
#[test]
fn random_lists_agree() {
    for (profile, count) in [
        (Profile::Tiny, 2_000),
        (Profile::Small, 1_000),
        (Profile::Large, 2),
    ] {
        answered(generate::lists(31, count, profile), answer_list);
    }
    let lists = generate::lists(32, 1_500, Profile::Small);
    let unripped = lists
        .iter()
        .filter(|case| check_unripped(case).unwrap_or_else(|apart| panic!("{apart}")));
    assert!(unripped.count() > 100);
}

#[test]
fn route_has_fewer_cells() {
    let printed = |sides| {
        let answer = check_route(default_job(sides, &[]).bytes()).unwrap();
        tree_answer_lines(&answer)
    };
    assert_eq!(printed([64, 1, 64]), "net 0 1\nrepeaters\n");
    assert_eq!(printed([64, 2, 33]), "refused 2 0\n");
}

#[test]
fn examples_of_searches() {
    for (name, case, answer) in examples::searches() {
        assert_eq!(answer_search(&case), answer, "{name}");
    }
}

#[test]
fn examples_of_sheets() {
    for (name, case, answer) in examples::sheets() {
        assert_eq!(answer_sheet(&case), answer, "{name}");
    }
}

/// Branches and occupied cells by the Rust's tree, repeaters by its two planning functions at the sheet's limits.
#[test]
fn examples_of_limits() {
    for (name, case, answer) in examples::limits() {
        assert_eq!(answer_sheet(&case), answer, "{name}");
    }
}

/// The published Rust answers as the published mode does.
#[test]
fn examples_of_modes() {
    for (name, case, answer, _) in examples::modes() {
        assert_eq!(answer_sheet(&case), answer, "{name}");
    }
}

#[test]
fn examples_of_whys() {
    for (name, case, answer) in examples::whys() {
        assert_eq!(answer_why(&case), answer, "{name}");
    }
}

#[test]
fn examples_of_tree_whys() {
    for (name, case, answer) in examples::tree_whys() {
        assert_eq!(answer_tree_why(&case), answer, "{name}");
    }
}

#[test]
fn examples_of_drawings() {
    for (name, case, answer) in examples::drawings() {
        assert_eq!(answer_drawing(&case), answer, "{name}");
    }
}

#[test]
fn random_searches_agree() {
    for (profile, count) in [
        (Profile::Tiny, 4_000),
        (Profile::Small, 2_000),
        (Profile::Large, 5),
    ] {
        answered(generate::searches(21, count, profile), answer_search);
    }
}

#[test]
fn random_sheets_agree() {
    for (profile, count) in [
        (Profile::Tiny, 2_000),
        (Profile::Small, 300),
        (Profile::Large, 5),
    ] {
        answered(generate::sheets(22, count, profile), answer_sheet);
    }
}

#[test]
fn random_limit_sheets_agree() {
    for (profile, count) in [
        (Profile::Tiny, 2_000),
        (Profile::Small, 300),
        (Profile::Large, 3),
    ] {
        let sheets = generate::limit_sheets(25, count, profile).into_iter();
        answered(sheets.map(|case| case.0).collect(), answer_sheet);
    }
}

/// The same branches at several limits.
#[test]
fn random_plans_agree() {
    let mut plans = 0;
    for (index, case) in (0..).zip(generate::limit_sheets(26, 400, Profile::Small)) {
        let Ok((mut job, room)) = case.0.judge(MOST_CELLS) else {
            continue;
        };
        let Ok(net) = route_net_tree(&job, &room, Limits::NONE) else {
            continue;
        };
        let mut rng = Rng::for_case(27, index);
        for _ in 0..5 {
            generate::set_limits(&mut rng, &mut job);
            let planned = check_plan(&job, &room, &net.branches);
            planned.unwrap_or_else(|difference| panic!("{difference}"));
            plans += 1;
        }
    }
    assert!(plans > 1_000, "{plans}");
}

#[test]
fn random_whys_agree() {
    for (profile, count) in [
        (Profile::Tiny, 4_000),
        (Profile::Small, 2_000),
        (Profile::Large, 5),
    ] {
        answered(generate::whys(23, count, profile), answer_why);
    }
}

#[test]
fn random_tree_whys_agree() {
    for (profile, count) in [
        (Profile::Tiny, 2_000),
        (Profile::Small, 400),
        (Profile::Large, 3),
    ] {
        answered(generate::tree_whys(24, count, profile), answer_tree_why);
    }
}

#[test]
fn random_drawings_agree() {
    for (profile, count) in [
        (Profile::Tiny, 4_000),
        (Profile::Small, 2_000),
        (Profile::Large, 5),
    ] {
        answered(generate::drawings(24, count, profile), answer_drawing);
    }
}

/// The cases with their answers. Where the published Rust and the plain router differ, that panics.
fn answered<C, A>(cases: Vec<C>, answer: fn(&C) -> A) -> Vec<(C, A)> {
    let answered = |case| {
        let answer = answer(&case);
        (case, answer)
    };
    cases.into_iter().map(answered).collect()
}

/// The stored files are, byte for byte, what the generator and the published Rust make.
#[test]
fn stored_searches_are_made_again() {
    let made = answered(answers::searches(), answer_search);
    assert!(write_answered(&made) == answers::SEARCHES.bytes());
}

#[test]
fn stored_sheets_are_made_again() {
    let made = answered(answers::sheets(), answer_sheet);
    assert!(write_answered(&made) == answers::SHEETS.bytes());
}

#[test]
fn stored_limit_sheets_are_made_again() {
    let made = answered(answers::limit_sheets(), |case| answer_sheet(&case.0));
    assert!(write_answered(&made) == answers::LIMIT_SHEETS.bytes());
}

#[test]
fn stored_strict_sheets_are_made_again() {
    let made = answered(answers::strict_sheets(), answer_strict);
    assert!(write_answered(&made) == answers::STRICT_SHEETS.bytes());
}

#[test]
fn stored_whys_are_made_again() {
    let made = answered(answers::whys(), answer_why);
    assert!(write_answered(&made) == answers::WHYS.bytes());
}

#[test]
fn stored_tree_whys_are_made_again() {
    let made = answered(answers::tree_whys(), answer_tree_why);
    assert!(write_answered(&made) == answers::TREE_WHYS.bytes());
}

#[test]
fn stored_lists_are_made_again() {
    let made = answered(answers::lists(), answer_list);
    assert!(write_answered(&made) == answers::LISTS.bytes());
}

#[test]
fn stored_drawings_are_made_again() {
    let made = answered(answers::drawings(), answer_drawing);
    assert!(write_answered(&made) == answers::DRAWINGS.bytes());
}
