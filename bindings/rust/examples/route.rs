//! Routes a job sheet: `route FILE`, or the hex sheet of tools/README.md with no argument. Prints what program `route`
//! prints: a tree's lines, or its refusal. Program `route` refuses rooms of over 4,096 cells; this doesn't.

use std::path::Path;
use std::process::ExitCode;
use std::{env, fs};

use dustroute::{Sheet, route_tree};

/// A row of ten cells, from end to end.
const SMALLEST: [u8; 45] = [
    1, 0, 0, 0, 40, 10, 1, 1, 0, 0, 0x75, 0x30, 0, 0, 0, 10, 0, 0, 0, 25, 0, 0, 0, 15, 0, 0, 0, 0, 0, 0, 0, 0, 0, 0, 0, 0, 0, 0, 0, 1, 9,
    0, 0, 0, 0,
];

fn main() -> ExitCode {
    let bytes = match env::args_os().nth(1) {
        None => SMALLEST.to_vec(),
        Some(file) => match fs::read(&file) {
            Ok(bytes) => bytes,
            Err(error) => {
                eprintln!("route: {}: {error}", Path::new(&file).display());
                return ExitCode::from(2);
            }
        },
    };
    match route_tree(&Sheet::from_bytes(bytes)) {
        Ok(tree) => print!("{tree}"),
        Err(refusal) => println!("{}", refusal.line()),
    }
    ExitCode::SUCCESS
}
