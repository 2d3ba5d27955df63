//! Times of function files in large rooms and in the largest: written, read, and plain Rust that makes and takes apart strings. A time is as in the
//! file bench.rs.

use std::hint::black_box;
use std::time::Duration;

use cases::function::{Function, FunctionAnswer, Reading, Writing, blocks, laid, text_of};
use cases::room::{MOST_CELLS, Room, kind};
use checks::{ask_function, function_memory};
use dustroute::lent::FUNCTION_VALUES;
use oracle::Rng;

use crate::bench::best;

const RUNS: usize = 15;
/// 16,384 cells, and 65,536.
const ROOMS: [[u16; 3]; 2] = [[64, 4, 64], [64, 16, 64]];

pub fn bench() {
    for [wide, high, deep] in ROOMS {
        println!(
            "{:<26}{:>8}{:>10}{:>12}{:>12}{:>14}{:>12}",
            format!("{wide}x{high}x{deep}"),
            "lines",
            "bytes",
            "written",
            "read",
            "plain write",
            "plain read"
        );
        for (name, filled) in [("all Air", 0), ("one in four a block", 25), ("no Air", 100)] {
            measure([wide, high, deep], name, filled);
        }
    }
}

/// A room of which so many of a hundred cells hold a block, each of those that can be written.
fn measure(sides: [u16; 3], name: &str, filled: usize) {
    let all: Vec<(u8, u8)> = blocks().collect();
    let mut rng = Rng::new(7);
    let block = |_| {
        if rng.percent(filled) {
            rng.pick(&all)
        } else {
            (kind::AIR, 0)
        }
    };
    let room = Room::new(sides, MOST_CELLS).expect("a lawful room");
    let (kinds, facings): (Vec<u8>, Vec<u8>) = (0..room.cells()).map(block).unzip();
    let text = text_of(&room, &kinds, &facings);
    let lines = kinds.iter().filter(|block| **block != kind::AIR).count();
    let written = Function::Write(Writing {
        sides,
        kinds: kinds.clone(),
        facings: facings.clone(),
        lent: text.len() as u32,
    });
    let read = Function::Read(Reading {
        sides,
        text: text.clone(),
        kinds: room.cells() as u32,
        facings: room.cells() as u32,
    });
    let times = [
        proved(&written),
        proved(&read),
        best(RUNS, || {
            black_box(text_of(&room, black_box(&kinds), &facings));
        }),
        best(RUNS, || {
            black_box(laid(&room, black_box(&text)).is_ok());
        }),
    ];
    let [write, read, plain_write, plain_read] = times.map(|time| time.as_secs_f64() * 1e3);
    println!(
        "{name:<26}{lines:>8}{:>10}{write:>9.3} ms{read:>9.3} ms{plain_write:>11.3} ms{plain_read:>9.3} ms",
        text.len()
    );
}

fn proved(case: &Function) -> Duration {
    let mut memory = function_memory(case, 0, FUNCTION_VALUES, 0);
    assert_eq!(ask_function(case, &mut memory), 0);
    assert!(!matches!(case.plain_answer(), FunctionAnswer::Refused(_)));
    best(RUNS, || {
        black_box(ask_function(black_box(case), &mut memory));
    })
}
