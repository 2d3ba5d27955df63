//! `oracle smallest`: the smallest inputs of docs/SMALLEST.md, and the walks through all smaller ones.

use cases::smallest::signs::read_otherwise;
use cases::smallest::{Fewer, Input, Point, Sign, Step, points};
use cases::text::{search_answer_lines, search_lines, sheet_lines, tree_answer_lines};
use oracle::{Sheet, check_route, check_search};

use crate::Trouble;

/// The points asked for: the one of this name, or all.
pub fn asked(name: Option<String>) -> Result<Vec<Point>, String> {
    let Some(name) = name else {
        return Ok(points());
    };
    let named: Vec<_> = points()
        .into_iter()
        .filter(|point| point.name == name)
        .collect();
    if named.is_empty() {
        let names: Vec<_> = points().iter().map(|point| point.name).collect();
        return Err(format!(
            "no such point: {name}; there are {}",
            names.join(", ")
        ));
    }
    Ok(named)
}

/// The point's input with the answer that the published Rust and the plain router give, then what is known of smaller
/// ones.
pub fn shown(point: &Point) -> Result<String, Trouble> {
    if !point.is_shown() {
        return Err(differs(point, "its input doesn't show it"));
    }
    let cells = point.input.cells();
    Ok(format!(
        "{}: {}\ncells {cells}\n{}{}{}",
        point.name,
        point.says,
        input_and_answer(&point.input)?,
        other_reading(point),
        fewer(point, cells)?
    ))
}

fn differs(point: &Point, what: &str) -> Trouble {
    Trouble::Differs(format!("{}: {what}", point.name))
}

fn input_and_answer(input: &Input) -> Result<String, Trouble> {
    Ok(match input {
        Input::Search(search) => {
            search_lines(search) + &search_answer_lines(&check_search(search)?)
        }
        Input::Job(job) => {
            let sheet = Sheet::of_route(job.bytes());
            sheet_lines(&sheet) + &tree_answer_lines(&check_route(sheet.bytes)?)
        }
    })
}

/// What the other reading of an open point answers.
fn other_reading(point: &Point) -> String {
    match (&point.sign, &point.input) {
        (Sign::Read(other), Input::Job(job)) => {
            let lines = tree_answer_lines(&read_otherwise(job, *other));
            let lines = lines.lines().map(|line| format!("otherwise {line}\n"));
            lines.collect()
        }
        _ => String::new(),
    }
}

fn fewer(point: &Point, cells: usize) -> Result<String, Trouble> {
    match point.fewer {
        Fewer::Reason(reason) => Ok(format!("fewer cells: none, for {reason}\n")),
        Fewer::Open(known) => Ok(format!("fewer cells: {known}\n")),
        Fewer::Searches(_) | Fewer::Jobs(_) => {
            let steps = (1..=cells).filter_map(|cells| point.step(cells));
            let lines: Result<Vec<_>, _> = steps.map(|step| walked(point, &step)).collect();
            Ok(lines?.concat())
        }
    }
}

/// One line for each number of cells. An input of fewer cells than the point's own that shows it is an error, and so is a
/// walk that finds none among as many cells.
fn walked(point: &Point, step: &Step) -> Result<String, Trouble> {
    let Step { cells, seen, shown } = step;
    match shown {
        Some(input) if *cells < point.input.cells() => Err(differs(
            point,
            &format!("shown by fewer cells\n{}", input_and_answer(input)?),
        )),
        None if *cells == point.input.cells() => Err(differs(
            point,
            &format!("not found among {seen} inputs of {cells} cells"),
        )),
        Some(_) => Ok(format!("walked {cells} cells, {seen} inputs: found\n")),
        None => Ok(format!("walked {cells} cells, {seen} inputs: none\n")),
    }
}
