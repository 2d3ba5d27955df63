//! Routes several nets over one room and lays them into it: `nets [--strict] SHEET..`, one job sheet a net, or two nets of a small room with no
//! argument. Prints each net as program `route` does, and then the laid room as a function file for the game.

use std::error::Error;
use std::{env, fs};

use dustroute::{Config, Endpoint, Facing, Job, Mode, Port, Position, Room, Sheet, route_nets, write_function};

fn wire(x: u16, y: u16, z: u16) -> Endpoint {
    Endpoint {
        at: Position { x, y, z },
        port: Port::Wire,
        facing: Facing::None,
    }
}

/// One net along a wall of the room, and one that has to go round it.
fn two_nets() -> Result<Vec<Sheet>, Box<dyn Error>> {
    let room = Room { wide: 5, high: 2, deep: 4 };
    let ends = [(wire(0, 0, 0), wire(2, 0, 0)), (wire(4, 0, 0), wire(0, 0, 2))];
    let sheets = ends.map(|(source, sink)| Job::new(room, Config::default(), source, vec![sink]).sheet());
    Ok(sheets.into_iter().collect::<Result<_, _>>()?)
}

fn main() -> Result<(), Box<dyn Error>> {
    let mut words: Vec<String> = env::args().skip(1).collect();
    let strict = words.first().is_some_and(|word| word == "--strict");
    let mode = if strict { Mode::Strict } else { Mode::Published };
    let files = words.split_off(usize::from(strict));
    let sheets = match files.is_empty() {
        true => two_nets()?,
        false => files
            .iter()
            .map(|file| fs::read(file).map(Sheet::from_bytes))
            .collect::<Result<_, _>>()?,
    };
    let laid = match route_nets(mode, &sheets) {
        Ok(laid) => laid,
        Err(refused) => {
            println!("net {}\n{}", refused.net, refused.refusal.line());
            return Ok(());
        }
    };
    for tree in &laid.nets {
        print!("{tree}");
    }
    let room = sheets[0].room().expect("a room that is not refused");
    match write_function(room, &laid.kinds, &laid.facings) {
        Ok(text) => print!("{}", String::from_utf8(text)?),
        Err(refusal) => println!("no function file: {refusal}"),
    }
    Ok(())
}
