//! The proved search, its reason, the plain engine, the writer, the proved tree, its reason, several nets and function files, called through their
//! archive: compared with the oracle's answers on random cases, and timed.

mod bench;
mod bench_functions;
mod bench_modes;
mod bench_nets;
mod bench_once;
mod bench_plain;
mod bench_tree_whys;
mod bench_trees;
mod bench_whys;
mod bench_writes;
mod clock;
mod compare;
mod compare_drawings;
mod compare_functions;
mod compare_modes;
mod compare_nets;
mod compare_plain;
mod compare_plans;
mod compare_repeaters;
mod compare_rounds;
mod compare_smallest;
mod compare_tree_whys;
mod compare_trees;
mod compare_whys;
mod compare_writes;
mod connected;
mod flat;
mod proved;
mod wraps;

use std::process::ExitCode;

use oracle::Profile;

const HELP: &str = "\
driver compare searches|sheets|modes|whys --seed N --count N [--profile P] [--against oracle|plain] [--only rich]
                compares random cases, of whys the reason as well, of modes sheets in both; P is tiny, small, middle, large, halls or mixed (the default).
                oracle (the default): the published Rust and the plain router, which must agree; plain: the latter alone.
                rich: of the sheets only those that have a tree of two or more sinks with stairs and repeaters
driver compare limits --seed N --count N [--profile P] [--against oracle|plain] [--only rich]
                compares random sheets of both versions, at any limits
driver compare plans --seed N --count N [--profile P]
                compares the repeaters of random trees at eight limits each: the proved tree, the one call over its branches, the published
                Rust's two planning functions and the plain planning
driver compare repeaters --seed N --count N [--profile P] [--against oracle|plain]
                compares the one call for repeaters over random nets, trees' branches and arbitrary ones, a fifth of them damaged
driver compare plain --seed N --count N [--profile P]
                compares the plain engine with Dijkstra's rule and with the proved search, a fifth of the inputs damaged
driver compare tree-whys --seed N --count N [--profile P] [--against oracle|plain]
                compares random sheets in both modes, and why a sink wasn't reached, until so many were refused with 14
driver compare functions --seed N --count N [--profile P]
                compares function files, written and read, with the plain writer and reader; rooms go out and back, texts are damaged
driver compare writes --seed N --count N [--profile P]
                compares job sheets written from a job's parts with the plain writer, and reads them back; a third is damaged
driver compare rounds --seed N --count N [--profile P]
                sends random jobs round in three versions of the sheet: each is answered, taken apart and written again
driver compare drawings --seed N --count N [--profile P] [--against oracle|plain]
                compares routes drawn and their repeaters, a fifth of the inputs damaged
driver compare nets --seed N --count N [--profile P] [--against oracle|plain]
                compares lists of nets, a fifth of them damaged. plain: in both modes with plain routing and laying; oracle: in the published mode with
                each net's route_net_tree and materialize_multinet too, and with route_jobs_ripup where it takes the same order and rips up nothing
driver compare smallest compares the smallest inputs of docs/SMALLEST.md
driver connected --seed N --count N [--profile P]
                tests on so many trees of random sheets that the whole net hangs together
driver bench searches   times the proved search, the published Rust and plain Rust over flat arrays
driver bench whys       times a search without a route, and the same with its reason
driver bench tree-whys  times trees that stop at a sink, and the same with their reason
driver bench modes      times the proved tree in both modes
driver bench nets       times lists of nets, and the published Rust net by net with its laying
driver bench functions  times function files of the largest room, written and read
driver bench writes     times sheets of up to 60,000 bytes, written and read
driver bench plain      times the plain engine beside the proved search, with the number of its sweeps
driver bench trees [NAME..]
                times the proved tree and the published Rust: of trees whose names begin so, or all
driver bench once NAME..
                makes each search or tree whose name begins so once, and times nothing: to count instructions
driver bench halls [growth]
                times the hall of the examples beside the published Rust, which takes minutes, and how the time grows up to it; or that alone
driver wraps            shows costs at which the published Rust's sums wrap, and both answers
Status 0: done; 1: answers differ; 2: bad input.
";

/// The value behind an option, if it is given.
fn option<'a>(words: &'a [String], name: &str) -> Option<&'a str> {
    let mut pairs = words.chunks_exact(2);
    pairs
        .find(|pair| pair[0] == name)
        .map(|pair| pair[1].as_str())
}

fn number(words: &[String], name: &str) -> Result<u64, String> {
    let word = option(words, name).ok_or(format!("{name} is missing"))?;
    word.parse()
        .map_err(|_| format!("{name} {word}: no number"))
}

const OPTIONS: [&str; 5] = ["--seed", "--count", "--profile", "--against", "--only"];

fn draw(words: &[String]) -> Result<compare::Draw, String> {
    for pair in words.chunks(2) {
        if !OPTIONS.contains(&pair[0].as_str()) {
            return Err(format!("unknown option {}", pair[0]));
        }
        if pair.len() < 2 {
            return Err(format!("{} needs a value", pair[0]));
        }
    }
    let profile = option(words, "--profile").unwrap_or("mixed");
    Ok(compare::Draw {
        seed: number(words, "--seed")?,
        count: number(words, "--count")?,
        profile: Profile::named(profile).ok_or(format!("unknown profile {profile}"))?,
        published: match option(words, "--against").unwrap_or("oracle") {
            "oracle" => true,
            "plain" => false,
            other => return Err(format!("neither oracle nor plain: {other}")),
        },
        rich: match option(words, "--only") {
            None => false,
            Some("rich") => true,
            Some(other) => return Err(format!("only what? {other}")),
        },
    })
}

fn run(words: &[String]) -> Result<bool, String> {
    let command: Vec<&str> = words.iter().take(2).map(String::as_str).collect();
    match command[..] {
        ["compare", "searches"] => match draw(&words[2..])? {
            draw if draw.rich => Err("--only rich is for sheets".into()),
            draw => Ok(compare::compare(&draw)),
        },
        ["compare", "whys"] => match draw(&words[2..])? {
            draw if draw.rich => Err("--only rich is for sheets".into()),
            draw => Ok(compare_whys::compare(&draw)),
        },
        ["compare", "modes"] => match draw(&words[2..])? {
            draw if draw.rich => Err("--only rich is for sheets".into()),
            draw => Ok(compare_modes::compare(&draw)),
        },
        ["compare", "tree-whys"] => match draw(&words[2..])? {
            draw if draw.rich => Err("--only rich is for sheets".into()),
            draw => Ok(compare_tree_whys::compare(&draw)),
        },
        ["compare", "sheets"] => Ok(compare_trees::compare(&draw(&words[2..])?)),
        ["compare", "limits"] => Ok(compare_trees::compare_limits(&draw(&words[2..])?)),
        ["compare", "plans"] => match draw(&words[2..])? {
            draw if draw.rich || !draw.published => Err("no --against, no --only".into()),
            draw => Ok(compare_plans::compare(&draw)),
        },
        ["compare", "repeaters"] => match draw(&words[2..])? {
            draw if draw.rich => Err("--only rich is for sheets".into()),
            draw => Ok(compare_repeaters::compare(&draw)),
        },
        ["compare", "plain"] => match draw(&words[2..])? {
            draw if draw.rich || !draw.published => Err("no --against, no --only".into()),
            draw => Ok(compare_plain::compare(&draw)),
        },
        ["compare", "functions"] => match draw(&words[2..])? {
            draw if draw.rich || !draw.published => Err("no --against, no --only".into()),
            draw => Ok(compare_functions::compare(&draw)),
        },
        ["compare", "writes"] => match draw(&words[2..])? {
            draw if draw.rich || !draw.published => Err("no --against, no --only".into()),
            draw => Ok(compare_writes::compare(&draw)),
        },
        ["compare", "rounds"] => match draw(&words[2..])? {
            draw if draw.rich || !draw.published => Err("no --against, no --only".into()),
            draw => Ok(compare_rounds::compare(&draw)),
        },
        ["compare", "drawings"] => match draw(&words[2..])? {
            draw if draw.rich => Err("--only rich is for sheets".into()),
            draw => Ok(compare_drawings::compare(&draw)),
        },
        ["compare", "nets"] => match draw(&words[2..])? {
            draw if draw.rich => Err("--only rich is for sheets".into()),
            draw => Ok(compare_nets::compare(&draw)),
        },
        ["compare", "smallest"] => Ok(compare_smallest::compare()),
        ["connected", ..] => match draw(&words[1..])? {
            draw if draw.rich || !draw.published => Err("no --against, no --only".into()),
            draw => Ok(connected::check(&draw)),
        },
        ["bench", "searches"] => {
            bench::bench();
            Ok(true)
        }
        ["bench", "whys"] => {
            bench_whys::bench();
            Ok(true)
        }
        ["bench", "tree-whys"] => {
            bench_tree_whys::bench();
            Ok(true)
        }
        ["bench", "modes"] => {
            bench_modes::bench();
            Ok(true)
        }
        ["bench", "nets"] => {
            bench_nets::bench();
            Ok(true)
        }
        ["bench", "functions"] => {
            bench_functions::bench();
            Ok(true)
        }
        ["bench", "writes"] => {
            bench_writes::bench();
            Ok(true)
        }
        ["bench", "plain"] => {
            bench_plain::bench();
            Ok(true)
        }
        ["wraps"] => {
            wraps::show();
            Ok(true)
        }
        ["bench", "once"] if words.len() > 2 => {
            bench_once::bench(&words[2..]);
            Ok(true)
        }
        ["bench", "halls"] => {
            bench_trees::bench_halls(&words[2..]);
            Ok(true)
        }
        ["bench", "trees"] => {
            bench_trees::bench(&words[2..]);
            Ok(true)
        }
        _ => Err(format!("what is asked?\n{HELP}")),
    }
}

fn main() -> ExitCode {
    let words: Vec<String> = std::env::args().skip(1).collect();
    match run(&words) {
        Ok(true) => ExitCode::SUCCESS,
        Ok(false) => ExitCode::from(1),
        Err(message) => {
            eprintln!("driver: {message}");
            ExitCode::from(2)
        }
    }
}
