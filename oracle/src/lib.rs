//! The oracle: answers that the published Rust gives, with the refusals that it lacks judged by the wrapper. Each case
//! is also answered by the plain router of `cases`; where the two could both speak and differ, that is a hard error.

mod compare_drawing;
mod compare_list;
mod compare_plan;
mod compare_search;
mod compare_tree;
mod compare_tree_why;
mod compare_why;
mod published_side;

use std::fmt::{Display, Formatter};

pub use cases::Refusal;
pub use cases::drawing::{Drawing, DrawingAnswer};
pub use cases::generate::{
    Profile, random_drawing, random_limit_sheet, random_list, random_plan, random_search,
    random_sheet, random_strict, random_tree_why, random_why,
};
pub use cases::limits::LimitSheet;
pub use cases::lists::{List, NetRefusal};
pub use cases::nets::{LaidNets, ListAnswer};
pub use cases::plan::{Plan, PlanAnswer};
pub use cases::rng::Rng;
pub use cases::search::{Search, SearchAnswer};
pub use cases::sheet::{Sheet, TreeAnswer};
pub use cases::strict::StrictSheet;
pub use cases::tree_why::{TreeWhy, TreeWhyAnswer};
pub use cases::why::{Why, WhyAnswer};

pub use compare_drawing::check_drawing;
pub use compare_list::{PublishedList, check_list, check_unripped};
pub use compare_plan::{check_plan, check_repeaters};
pub use compare_search::check_search;
pub use compare_tree::{check_route, check_sheet, check_strict, tree_of};
pub use compare_tree_why::check_tree_why;
pub use compare_why::check_why;
pub use published_side::{PublishedJob, cell_at, pos_of, router_config, world_of};

/// The published Rust and the plain router differ on a case; the text shows the case and both answers.
#[derive(Debug)]
pub struct Disagreement(String);

/// The answer, if what the published Rust gave is what the plain router expects of it; else the case and both, as lines.
fn agreed<A: PartialEq>(
    answer: A,
    expected: &A,
    published: Result<A, String>,
    case: impl FnOnce() -> String,
    lines: fn(&A) -> String,
) -> Result<A, Disagreement> {
    if published.as_ref() == Ok(expected) {
        return Ok(answer);
    }
    let published = published.map_or_else(|error| error + "\n", |answer| lines(&answer));
    Err(Disagreement(format!(
        "{}plain router:\n{}published Rust:\n{published}",
        case(),
        lines(expected)
    )))
}

impl Display for Disagreement {
    fn fmt(&self, f: &mut Formatter<'_>) -> std::fmt::Result {
        f.write_str(&self.0)
    }
}

/// The answer to a search. Panics with the case if the published Rust and the plain search differ.
pub fn answer_search(case: &Search) -> SearchAnswer {
    check_search(case).unwrap_or_else(|difference| panic!("{difference}"))
}

/// The answer to a sheet at its own limits, as the library's tree. Panics with the case if the published Rust and the
/// plain router differ.
pub fn answer_sheet(case: &Sheet) -> TreeAnswer {
    check_sheet(case).unwrap_or_else(|difference| panic!("{difference}"))
}

/// The answer to a sheet in strict mode. Panics with the case if the published Rust and the plain router differ in the published mode.
pub fn answer_strict(case: &StrictSheet) -> TreeAnswer {
    check_strict(case).unwrap_or_else(|difference| panic!("{difference}"))
}

/// The answer to a drawing. Panics with the case if the published Rust and the plain drawing differ.
pub fn answer_drawing(case: &Drawing) -> DrawingAnswer {
    check_drawing(case).unwrap_or_else(|difference| panic!("{difference}"))
}

/// The answer to a list of nets. Panics with the case if the published Rust and the plain routing or laying differ.
pub fn answer_list(case: &List) -> ListAnswer {
    check_list(case).unwrap_or_else(|difference| panic!("{difference}"))
}

/// The answer to a search with its reason. Panics with the case if the published Rust and the plain search or flood differ.
pub fn answer_why(case: &Why) -> WhyAnswer {
    check_why(case).unwrap_or_else(|difference| panic!("{difference}"))
}

/// The answer to a sheet with its reason. Panics with the case if the published Rust and the plain router differ, or a first search and
/// the verdict.
pub fn answer_tree_why(case: &TreeWhy) -> TreeWhyAnswer {
    check_tree_why(case).unwrap_or_else(|difference| panic!("{difference}"))
}
