//! The stored answers: which files, and the seed and count that make them.

use std::path::PathBuf;

use crate::drawing::Drawing;
use crate::examples::{
    drawing_cases, function_cases, limit_cases, list_cases, parts_cases, plan_cases, search_cases,
    sheet_cases, strict_cases, tree_why_cases, why_cases,
};
use crate::function::Function;
use crate::generate::{self, Profile};
use crate::limits::LimitSheet;
use crate::lists::List;
use crate::parts::Parts;
use crate::plan::Plan;
use crate::search::Search;
use crate::sheet::Sheet;
use crate::strict::StrictSheet;
use crate::tree_why::TreeWhy;
use crate::why::Why;

/// A file of the samples and examples, followed by random cases of the mixed profile, function files, drawings and parts of jobs of the
/// tiny one, plans of repeaters and lists of nets of the small one. It lies in the repository beside the proved program, or the tests, that replay it.
pub struct Stored {
    pub file: &'static str,
    pub seed: u64,
    pub count: u32,
}

pub const SEARCHES: Stored = Stored {
    file: "crates/replay/data/searches.bin",
    seed: 1,
    count: 1_950,
};

pub const SHEETS: Stored = Stored {
    file: "crates/replay_sheets/data/sheets.bin",
    seed: 100,
    count: 990,
};

pub const LIMIT_SHEETS: Stored = Stored {
    file: "tests/bindings/limits.bin",
    seed: 8,
    count: 400,
};

pub const STRICT_SHEETS: Stored = Stored {
    file: "tests/bindings/strict.bin",
    seed: 1,
    count: 400,
};

pub const WHYS: Stored = Stored {
    file: "tests/bindings/whys.bin",
    seed: 1,
    count: 400,
};

pub const TREE_WHYS: Stored = Stored {
    file: "tests/bindings/treewhys.bin",
    seed: 1,
    count: 500,
};

pub const FUNCTIONS: Stored = Stored {
    file: "tests/bindings/functions.bin",
    seed: 1,
    count: 300,
};

pub const DRAWINGS: Stored = Stored {
    file: "tests/bindings/drawings.bin",
    seed: 1,
    count: 400,
};

pub const PLANS: Stored = Stored {
    file: "tests/bindings/repeaters.bin",
    seed: 1,
    count: 500,
};

pub const LISTS: Stored = Stored {
    file: "tests/bindings/nets.bin",
    seed: 5,
    count: 200,
};

pub const WRITES: Stored = Stored {
    file: "tests/bindings/writes.bin",
    seed: 1,
    count: 400,
};

impl Stored {
    /// The file's bytes. Only tests ask: the path is that of the sources.
    pub fn bytes(&self) -> Vec<u8> {
        let repository = PathBuf::from(env!("CARGO_MANIFEST_DIR")).join("../..");
        let file = repository.join(self.file);
        std::fs::read(&file).unwrap_or_else(|error| panic!("{}: {error}", file.display()))
    }
}

/// The cases of `searches.bin`, made anew.
pub fn searches() -> Vec<Search> {
    let random = generate::searches(SEARCHES.seed, SEARCHES.count, Profile::Mixed);
    search_cases().into_iter().chain(random).collect()
}

/// The cases of `sheets.bin`, made anew.
pub fn sheets() -> Vec<Sheet> {
    let random = generate::sheets(SHEETS.seed, SHEETS.count, Profile::Mixed);
    sheet_cases().into_iter().chain(random).collect()
}

/// The cases of `limits.bin`, made anew.
pub fn limit_sheets() -> Vec<LimitSheet> {
    let random = generate::limit_sheets(LIMIT_SHEETS.seed, LIMIT_SHEETS.count, Profile::Mixed);
    limit_cases().into_iter().chain(random).collect()
}

/// The cases of `strict.bin`, made anew.
pub fn strict_sheets() -> Vec<StrictSheet> {
    let random = generate::strict_sheets(STRICT_SHEETS.seed, STRICT_SHEETS.count, Profile::Mixed);
    strict_cases().into_iter().chain(random).collect()
}

/// The cases of `whys.bin`, made anew.
pub fn whys() -> Vec<Why> {
    let random = generate::whys(WHYS.seed, WHYS.count, Profile::Mixed);
    why_cases().into_iter().chain(random).collect()
}

/// The cases of `treewhys.bin`, made anew.
pub fn tree_whys() -> Vec<TreeWhy> {
    let random = generate::tree_whys(TREE_WHYS.seed, TREE_WHYS.count, Profile::Mixed);
    tree_why_cases().into_iter().chain(random).collect()
}

/// The cases of `functions.bin`, made anew.
pub fn functions() -> Vec<Function> {
    let random = generate::functions(FUNCTIONS.seed, FUNCTIONS.count, Profile::Tiny);
    function_cases().into_iter().chain(random).collect()
}

/// The cases of `drawings.bin`, made anew.
pub fn drawings() -> Vec<Drawing> {
    let random = generate::drawings(DRAWINGS.seed, DRAWINGS.count, Profile::Tiny);
    drawing_cases().into_iter().chain(random).collect()
}

/// The cases of `repeaters.bin`, made anew.
pub fn plans() -> Vec<Plan> {
    let random = generate::plans(PLANS.seed, PLANS.count, Profile::Small);
    plan_cases().into_iter().chain(random).collect()
}

/// The cases of `nets.bin`, made anew.
pub fn lists() -> Vec<List> {
    let random = generate::lists(LISTS.seed, LISTS.count, Profile::Small);
    list_cases().into_iter().chain(random).collect()
}

/// The cases of `writes.bin`, made anew.
pub fn writes() -> Vec<Parts> {
    let random = generate::writes(WRITES.seed, WRITES.count, Profile::Tiny);
    parts_cases().into_iter().chain(random).collect()
}
