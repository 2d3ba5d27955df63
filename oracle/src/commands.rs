//! The commands.

use std::ffi::OsString;
use std::fs::{File, OpenOptions};
use std::io::{self, ErrorKind, Read, Write};
use std::path::Path;

use cases::files::{self, Cases};
use cases::function::Function;
use cases::parts::Parts;
use cases::samples::{Sample, samples};
use cases::smallest::Point;
use cases::stats::Tally;
use cases::text::{number, parse_hex, parse_search, search_answer_lines, tree_answer_lines};
use cases::tree::ROUTE_LIMITS;
use oracle::{
    Drawing, LimitSheet, List, Plan, Profile, Rng, Search, Sheet, StrictSheet, TreeWhy, Why,
    check_route, check_search, check_sheet,
};

use crate::Trouble;
use crate::arguments::Arguments;
use crate::kinds::Asked;
use crate::smallest;

const HELP: &str = "\
oracle search FILE|-                        answers one search, in text or a file of one search
oracle sheet [--hex] FILE|-                 prints what program `route` prints for a sheet
oracle sheet [--hex] [--queue N] [--branch N] [--lent N] FILE|-
                                            the same as the library's tree, with such buffers
oracle samples                              runs the samples of docs/RULES.md
oracle smallest [POINT]                     the smallest inputs of docs/SMALLEST.md, and the walks through smaller ones
oracle generate KIND --seed N --count N --out FILE [--profile P] [--examples] [--force]
                                            writes random cases, with --examples behind the samples and examples
oracle answer KIND IN OUT [--force]         answers the cases of a file
oracle check KIND FILE                      answers them again and compares with the stored answers
oracle compare KIND --seed N --count N [--profile P]
                                            answers random cases, writes none
oracle show KIND FILE [INDEX]               cases and answers for a reader
oracle stats KIND FILE                      how many of which cases
KIND is `searches`, `sheets`, `limit-sheets`, sheets of both versions, `strict-sheets`, sheets in strict mode, `whys`, searches with their reason, `tree-whys`, sheets with theirs,
`functions`, function files written and read, `drawings`, routes drawn, `repeaters`, a net's in one call, `writes`, parts of jobs written as sheets, or `nets`, lists of nets; P is tiny,
small, middle, large or mixed (the default); `-` is standard input.
Status 0: done; 1: answers differ; 2: bad input.
";

const KINDS: &str = "`searches`, `sheets`, `limit-sheets`, `strict-sheets`, `whys`, `tree-whys`, `functions`, `drawings`, `repeaters`, `writes`, `nets`";

pub fn run(raw: impl Iterator<Item = OsString>) -> Result<(), Trouble> {
    let mut arguments = Arguments::sort(raw)?;
    let command = arguments.word("a command")?;
    match command.as_str() {
        "help" => with(arguments, |_| Ok(()), |()| print(HELP)),
        "samples" => with(arguments, |_| Ok(()), |()| run_samples()),
        "smallest" => with(arguments, smallest_request, |points| run_smallest(&points)),
        "search" => with(arguments, |a| a.word("FILE"), |file| search(&file)),
        "sheet" => with(arguments, sheet_request, |request| sheet(&request)),
        "generate" | "answer" | "check" | "compare" | "show" | "stats" => {
            match arguments.word(KINDS)?.as_str() {
                "searches" => run_lists::<Search>(&command, arguments),
                "sheets" => run_lists::<Sheet>(&command, arguments),
                "limit-sheets" => run_lists::<LimitSheet>(&command, arguments),
                "strict-sheets" => run_lists::<StrictSheet>(&command, arguments),
                "whys" => run_lists::<Why>(&command, arguments),
                "tree-whys" => run_lists::<TreeWhy>(&command, arguments),
                "functions" => run_lists::<Function>(&command, arguments),
                "drawings" => run_lists::<Drawing>(&command, arguments),
                "repeaters" => run_lists::<Plan>(&command, arguments),
                "writes" => run_lists::<Parts>(&command, arguments),
                "nets" => run_lists::<List>(&command, arguments),
                kind => Err(format!("none of {KINDS}: {kind}").into()),
            }
        }
        _ => Err(format!("unknown command {command}; see `oracle help`").into()),
    }
}

fn run_lists<C: Asked>(command: &str, arguments: Arguments) -> Result<(), Trouble> {
    match command {
        "generate" => with(arguments, Made::request, |made| generate::<C>(&made)),
        "compare" => with(arguments, Draw::request, |draw| compare::<C>(&draw)),
        "answer" => with(arguments, answer_request, |(from, to, force)| {
            answer::<C>(&from, &to, force)
        }),
        "check" => with(arguments, |a| a.word("FILE"), |file| check::<C>(&file)),
        "show" => with(arguments, show_request, |(file, index)| {
            show::<C>(&file, index)
        }),
        _ => with(arguments, |a| a.word("FILE"), |file| stats::<C>(&file)),
    }
}

/// Takes a command's request out of the arguments, makes sure that nothing is left, then runs it.
fn with<R>(
    mut arguments: Arguments,
    request: impl FnOnce(&mut Arguments) -> Result<R, String>,
    run: impl FnOnce(R) -> Result<(), Trouble>,
) -> Result<(), Trouble> {
    let request = request(&mut arguments)?;
    arguments.done()?;
    run(request)
}

/// Writes to standard output. A reader that has heard enough is no trouble.
fn print(text: &str) -> Result<(), Trouble> {
    match io::stdout().write_all(text.as_bytes()) {
        Err(error) if error.kind() != ErrorKind::BrokenPipe => {
            Err(format!("standard output: {error}").into())
        }
        _ => Ok(()),
    }
}

fn read_bytes(file: &str) -> Result<Vec<u8>, String> {
    let mut bytes = Vec::new();
    let read = match file {
        "-" => io::stdin().read_to_end(&mut bytes),
        _ => File::open(file).and_then(|mut file| file.read_to_end(&mut bytes)),
    };
    read.map_err(|error| format!("{file}: {error}"))?;
    Ok(bytes)
}

fn read_text(file: &str) -> Result<String, String> {
    String::from_utf8(read_bytes(file)?).map_err(|_| format!("{file}: not a text"))
}

fn read_cases<C: Asked>(file: &str) -> Result<Cases<C>, String> {
    files::read(&read_bytes(file)?).map_err(|error| format!("{file}: {error}"))
}

/// The cases of a file that has answers.
fn read_answered<C: Asked>(file: &str) -> Result<Vec<(C, C::Answer)>, String> {
    let cases = read_cases(file)?.into_iter();
    cases
        .map(|(case, answer)| Some((case, answer?)))
        .collect::<Option<_>>()
        .ok_or_else(|| format!("{file}: its cases have no answers; see `oracle answer`"))
}

/// Nothing is overwritten unless that is asked for. Called before the work, so that none is done in vain.
fn may_write(file: &str, force: bool) -> Result<(), String> {
    if !force && Path::new(file).exists() {
        return Err(format!("{file} exists; --force overwrites it"));
    }
    Ok(())
}

fn write_file(file: &str, force: bool, bytes: &[u8]) -> Result<(), String> {
    let mut options = OpenOptions::new();
    options.write(true);
    if force {
        options.create(true).truncate(true);
    } else {
        options.create_new(true);
    }
    options
        .open(file)
        .and_then(|mut file| file.write_all(bytes))
        .map_err(|error| format!("{file}: {error}"))
}

fn search(file: &str) -> Result<(), Trouble> {
    let bytes = read_bytes(file)?;
    let case = if bytes.starts_with(b"DRS") {
        only_search(&bytes)
    } else {
        String::from_utf8(bytes)
            .map_err(|_| "neither a text nor a file of searches".into())
            .and_then(|text| parse_search(&text))
    };
    let case = case.map_err(|error| format!("{file}: {error}"))?;
    print(&search_answer_lines(&check_search(&case)?))
}

fn only_search(bytes: &[u8]) -> Result<Search, String> {
    let cases: Cases<Search> = files::read(bytes)?;
    match <[_; 1]>::try_from(cases) {
        Ok([(case, _)]) => Ok(case),
        Err(cases) => Err(format!(
            "holds {} searches, not one; see `oracle answer`",
            cases.len()
        )),
    }
}

fn option_number(name: &str, word: &str) -> Result<u32, String> {
    number(word).map_err(|error| format!("{name}: {error}"))
}

struct SheetRequest {
    file: String,
    hex: bool,
    /// Queue, branch buffer and other buffers; none of them given means program `route`.
    buffers: [Option<u32>; 3],
}

fn sheet_request(arguments: &mut Arguments) -> Result<SheetRequest, String> {
    let mut buffer = |name| {
        let given = arguments.option(name);
        given.map(|word| option_number(name, &word)).transpose()
    };
    Ok(SheetRequest {
        buffers: [buffer("--queue")?, buffer("--branch")?, buffer("--lent")?],
        hex: arguments.flag("--hex"),
        file: arguments.word("FILE")?,
    })
}

fn sheet(request: &SheetRequest) -> Result<(), Trouble> {
    let bytes = if request.hex {
        let text = read_text(&request.file)?;
        parse_hex(&text).map_err(|error| format!("{}: {error}", request.file))?
    } else {
        read_bytes(&request.file)?
    };
    let answer = match request.buffers {
        [None, None, None] => check_route(bytes)?,
        [queue, branch, lent] => check_sheet(&Sheet {
            queue: queue.unwrap_or(ROUTE_LIMITS.queue as u32),
            branch: branch.unwrap_or(ROUTE_LIMITS.branch as u32),
            lent: lent.unwrap_or(cases::room::MOST_CELLS as u32),
            bytes,
        })?,
    };
    print(&tree_answer_lines(&answer))
}

fn run_samples() -> Result<(), Trouble> {
    for (name, sample) in samples() {
        let (found, expected) = match sample {
            Sample::Search(case, expected) => (
                search_answer_lines(&check_search(&case)?),
                search_answer_lines(&expected),
            ),
            Sample::Sheet(case, expected) => (
                tree_answer_lines(&check_sheet(&case)?),
                tree_answer_lines(&expected),
            ),
        };
        if found != expected {
            return Err(Trouble::Differs(format!(
                "sample {name}\nexpected:\n{expected}found:\n{found}"
            )));
        }
        print(&format!("sample {name}\n{found}"))?;
    }
    Ok(())
}

fn smallest_request(arguments: &mut Arguments) -> Result<Vec<Point>, String> {
    smallest::asked(arguments.optional_word())
}

fn run_smallest(points: &[Point]) -> Result<(), Trouble> {
    for point in points {
        print(&format!("{}\n", smallest::shown(point)?))?;
    }
    Ok(())
}

/// Which random cases: a seed, a count and a profile.
struct Draw {
    seed: u64,
    count: u32,
    profile: Profile,
}

impl Draw {
    fn request(arguments: &mut Arguments) -> Result<Self, String> {
        let seed = arguments.needed("--seed")?;
        let profile = arguments.option("--profile").unwrap_or("mixed".into());
        Ok(Self {
            seed: seed
                .parse()
                .map_err(|_| format!("--seed: not a number that fits eight bytes: {seed:?}"))?,
            count: option_number("--count", &arguments.needed("--count")?)?,
            profile: Profile::named(&profile).ok_or(format!("no such profile: {profile}"))?,
        })
    }

    fn cases<C: Asked>(&self) -> impl Iterator<Item = C> {
        let indices = 0..u64::from(self.count);
        indices.map(|index| C::random(&mut Rng::for_case(self.seed, index), self.profile))
    }
}

struct Made {
    draw: Draw,
    examples: bool,
    out: String,
    force: bool,
}

impl Made {
    fn request(arguments: &mut Arguments) -> Result<Self, String> {
        Ok(Self {
            draw: Draw::request(arguments)?,
            examples: arguments.flag("--examples"),
            out: arguments.needed("--out")?,
            force: arguments.flag("--force"),
        })
    }
}

fn generate<C: Asked>(made: &Made) -> Result<(), Trouble> {
    may_write(&made.out, made.force)?;
    let mut cases = if made.examples {
        C::examples()
    } else {
        Vec::new()
    };
    cases.extend(made.draw.cases::<C>());
    Ok(write_file(
        &made.out,
        made.force,
        &files::write_bare(&cases),
    )?)
}

fn answer_request(arguments: &mut Arguments) -> Result<(String, String, bool), String> {
    Ok((
        arguments.word("IN")?,
        arguments.word("OUT")?,
        arguments.flag("--force"),
    ))
}

fn answer<C: Asked>(from: &str, to: &str, force: bool) -> Result<(), Trouble> {
    may_write(to, force)?;
    let mut answered = Vec::new();
    for (case, _) in read_cases::<C>(from)? {
        let answer = case.check()?;
        answered.push((case, answer));
    }
    Ok(write_file(to, force, &files::write_answered(&answered))?)
}

fn check<C: Asked>(file: &str) -> Result<(), Trouble> {
    let cases = read_answered::<C>(file)?;
    for (index, (case, stored)) in cases.iter().enumerate() {
        let found = case.check()?;
        if found != *stored {
            return Err(Trouble::Differs(format!(
                "case {index}\n{}stored:\n{}found:\n{}",
                case.lines(),
                C::answer_lines(stored),
                C::answer_lines(&found)
            )));
        }
    }
    print(&format!("{} answers agree\n", cases.len()))
}

fn compare<C: Asked>(draw: &Draw) -> Result<(), Trouble> {
    let mut tally = Tally::default();
    for case in draw.cases::<C>() {
        case.count(&case.check()?, &mut tally);
    }
    print(&format!("{} cases agree\n{}", draw.count, tally.lines()))
}

fn show_request(arguments: &mut Arguments) -> Result<(String, Option<u32>), String> {
    let file = arguments.word("FILE")?;
    let index = arguments.optional_word();
    Ok((file, index.map(|word| number(&word)).transpose()?))
}

fn show<C: Asked>(file: &str, index: Option<u32>) -> Result<(), Trouble> {
    let cases = read_cases::<C>(file)?;
    let count = cases.len();
    let chosen = match index.map(|index| index as usize) {
        Some(index) if index >= count => {
            return Err(format!("{file}: no case {index}, it holds {count}").into());
        }
        Some(index) => index..index + 1,
        None => 0..count,
    };
    for index in chosen {
        let (case, answer) = &cases[index];
        // Behind `#`, so that `oracle search` reads a shown search.
        let answer = answer.as_ref().map_or(String::new(), C::answer_lines);
        let answer: String = answer.lines().map(|line| format!("# {line}\n")).collect();
        print(&format!("# case {index}\n{}{answer}", case.lines()))?;
    }
    Ok(())
}

fn stats<C: Asked>(file: &str) -> Result<(), Trouble> {
    let mut tally = Tally::default();
    for (case, answer) in read_answered::<C>(file)? {
        case.count(&answer, &mut tally);
    }
    print(&tally.lines())
}
