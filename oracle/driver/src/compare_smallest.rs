//! The smallest inputs of docs/DIFFERENCES.md and docs/OPEN-POINTS.md: the proved search and the proved tree against the
//! oracle's answers.

use cases::smallest::{Input, points};
use cases::text::{search_lines, sheet_lines};
use oracle::{Search, Sheet, check_search, check_sheet};

use crate::compare::{self, Differences};
use crate::compare_trees::{self, Call};
use crate::flat::Flat;

/// Compares each point's input in the way that a random case is compared, and prints how many there are; false if anything
/// differs.
pub fn compare() -> bool {
    let points = points();
    let mut differences = Differences::default();
    for point in &points {
        let (found, case) = match &point.input {
            Input::Search(search) => (search_differs(search), search_lines(search)),
            Input::Job(job) => {
                let sheet = Sheet::of_route(job.bytes());
                (sheet_differs(&sheet), sheet_lines(&sheet))
            }
        };
        if let Err(what) = found {
            differences.add(point.name, &what, &case);
        }
    }
    println!("{} smallest inputs", points.len());
    differences.told()
}

fn search_differs(case: &Search) -> Result<(), String> {
    let expected = check_search(case).map_err(|difference| difference.to_string())?;
    compare::differs(case, &expected, &mut Flat::default(), 1)
}

fn sheet_differs(case: &Sheet) -> Result<(), String> {
    let expected = check_sheet(case).map_err(|difference| difference.to_string())?;
    compare_trees::differs(case, &expected, Call::Plain, 1)
}
