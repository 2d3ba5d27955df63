//! Files, text and sheets: what is written is read back, and what is damaged is refused.

use cases::drawing::Drawing;
use cases::files::{Case, read, write_answered, write_bare};
use cases::function::Function;
use cases::generate::{
    Profile, drawings, functions, limit_sheets, lists, plans, searches, sheets, strict_sheets,
    tree_whys, whys, writes,
};
use cases::limits::LimitSheet;
use cases::lists::List;
use cases::parts::Parts;
use cases::plan::Plan;
use cases::room::Config;
use cases::samples::HEX_SHEET;
use cases::search::Search;
use cases::sheet::{Block, Job, Port, Sheet, Sink};
use cases::strict::StrictSheet;
use cases::text::{parse_hex, parse_search, search_lines, sheet_lines};
use cases::tree_why::TreeWhy;
use cases::version::{USUAL_RUN, Version};
use cases::why::Why;

fn some_searches() -> Vec<Search> {
    searches(7, 300, Profile::Small)
}

fn some_sheets() -> Vec<Sheet> {
    sheets(7, 200, Profile::Tiny)
}

fn some_limit_sheets() -> Vec<LimitSheet> {
    limit_sheets(7, 200, Profile::Tiny)
}

fn some_strict_sheets() -> Vec<StrictSheet> {
    strict_sheets(7, 200, Profile::Tiny)
}

fn some_functions() -> Vec<Function> {
    functions(7, 300, Profile::Tiny)
}

fn some_whys() -> Vec<Why> {
    whys(7, 300, Profile::Tiny)
}

fn some_tree_whys() -> Vec<TreeWhy> {
    tree_whys(7, 300, Profile::Tiny)
}

fn some_drawings() -> Vec<Drawing> {
    drawings(7, 300, Profile::Tiny)
}

fn some_plans() -> Vec<Plan> {
    plans(7, 300, Profile::Tiny)
}

fn some_lists() -> Vec<List> {
    lists(7, 200, Profile::Tiny)
}

fn some_writes() -> Vec<Parts> {
    writes(7, 300, Profile::Tiny)
}

fn bare_round_trip<C: Case + Clone + PartialEq>(cases: &[C]) {
    let found = read::<C>(&write_bare(cases)).unwrap();
    let (found, answers): (Vec<_>, Vec<_>) = found.into_iter().unzip();
    assert!(found == cases);
    assert!(answers.iter().all(Option::is_none));
}

#[test]
fn bare_files_are_read_back() {
    bare_round_trip(&some_searches());
    bare_round_trip(&some_sheets());
    bare_round_trip(&some_limit_sheets());
    bare_round_trip(&some_strict_sheets());
    bare_round_trip(&some_whys());
    bare_round_trip(&some_tree_whys());
    bare_round_trip(&some_functions());
    bare_round_trip(&some_drawings());
    bare_round_trip(&some_plans());
    bare_round_trip(&some_lists());
    bare_round_trip(&some_writes());
}

fn answered_round_trip<C>(cases: &[C], answer: fn(&C) -> C::Answer)
where
    C: Case<Answer: PartialEq> + Clone + PartialEq,
{
    let answered: Vec<_> = cases
        .iter()
        .map(|case| (case.clone(), answer(case)))
        .collect();
    let found = read::<C>(&write_answered(&answered)).unwrap();
    assert_eq!(found.len(), answered.len());
    for (found, (case, answer)) in found.iter().zip(&answered) {
        assert!(found.0 == *case && found.1.as_ref() == Some(answer));
    }
}

#[test]
fn answered_files_are_read_back() {
    answered_round_trip(&some_searches(), Search::plain_answer);
    answered_round_trip(&some_sheets(), Sheet::plain_answer);
    answered_round_trip(&some_limit_sheets(), LimitSheet::plain_answer);
    answered_round_trip(&some_strict_sheets(), StrictSheet::plain_answer);
    answered_round_trip(&some_whys(), Why::plain_answer);
    answered_round_trip(&some_tree_whys(), TreeWhy::plain_answer);
    answered_round_trip(&some_functions(), Function::plain_answer);
    answered_round_trip(&some_drawings(), Drawing::plain_answer);
    answered_round_trip(&some_plans(), Plan::plain_answer);
    answered_round_trip(&some_lists(), List::plain_answer);
    answered_round_trip(&some_writes(), Parts::plain_answer);
}

#[test]
fn damaged_files_are_refused() {
    let cases: Vec<_> = some_searches()[..5]
        .iter()
        .map(|case| (case.clone(), case.plain_answer()))
        .collect();
    let bytes = write_answered(&cases);
    for length in 0..bytes.len() {
        assert!(read::<Search>(&bytes[..length]).is_err(), "{length}");
    }
    assert!(read::<Sheet>(&bytes).is_err());
    assert!(read::<StrictSheet>(&write_bare(&some_sheets())).is_err());
    let longer = [bytes.as_slice(), &[0]].concat();
    assert_eq!(read::<Search>(&longer), Err("1 bytes left over".into()));
}

/// The number of an answer stands right behind its case.
#[test]
fn an_answer_that_cannot_be_is_refused() {
    let case = some_searches()[0].clone();
    let answer = case.plain_answer();
    let place = write_bare(std::slice::from_ref(&case)).len();
    for number in [1, 7, 14, 200] {
        let mut bytes = write_answered(&[(case.clone(), answer.clone())]);
        bytes[place] = number;
        assert!(read::<Search>(&bytes).is_err(), "{number}");
    }
}

#[test]
fn searches_in_text_are_read_back() {
    for case in some_searches() {
        assert_eq!(parse_search(&search_lines(&case)), Ok(case));
    }
}

#[test]
fn a_search_in_text_has_defaults() {
    let case = parse_search("room 3 1 1\nends 0 2\nkind 1 3\n").unwrap();
    assert_eq!((case.queue, case.lent), (36, 3));
    assert_eq!(case.kinds, [0, 3, 0]);
    assert_eq!(case.config, Config::DEFAULT);
}

#[test]
fn bad_text_is_refused_by_line() {
    for (text, message) in [
        ("", "no line `room X Y Z`"),
        ("room 3 1 1\n", "no line `ends START GOAL`"),
        ("room 3 1\n", "line 1: 3 numbers wanted, 2 found"),
        ("room 3 1 256\nends 0 0\n", "room: 256 is over 255"),
        ("room 3 1 1\nroom 3 1 1\n", "line 2: a second line \"room\""),
        ("hall 3 1 1\n", "line 1: unknown word \"hall\""),
        (
            "limit -1\n",
            "line 1: not a number that fits four bytes: \"-1\"",
        ),
        ("kinds 0*4000000000\n", "line 1: too many kinds"),
        (
            "room 3 1 1\nends 0 2\nkind 3 1\n",
            "kind: cell 3 is outside",
        ),
    ] {
        assert_eq!(parse_search(text), Err(message.to_string()), "{text}");
    }
}

#[test]
fn accepted_sheets_give_their_bytes_back() {
    let limited = some_limit_sheets().into_iter().map(|sheet| sheet.0);
    let jobs: Vec<_> = some_sheets()
        .into_iter()
        .chain(limited)
        .filter_map(|sheet| Some((Job::read(&sheet.bytes).ok()?, sheet.bytes)))
        .collect();
    assert!(jobs.len() > 300);
    for (job, bytes) in jobs {
        assert_eq!(job.bytes(), bytes);
    }
}

#[test]
fn the_hex_sheet_is_shown() {
    let sheet = Sheet::of_route(parse_hex(HEX_SHEET).unwrap());
    assert_eq!(
        sheet_lines(&sheet),
        "queue 12288\nbranch 16384\nlent 4096\nbytes 45\nroom 10 1 1\nlimit 30000\ncosts 10 25 15\n\
         source 0 0 0 port 0 facing 0\nsink 9 0 0 port 0 facing 0\n"
    );
}

/// The numbers of each line that begins with this word.
fn told(text: &str, word: &str) -> Vec<Vec<u32>> {
    let lines = text.lines().filter_map(|line| line.split_once(' '));
    lines
        .filter(|(first, _)| *first == word)
        .map(|(_, rest)| {
            rest.split(' ')
                .filter_map(|word| word.parse().ok())
                .collect()
        })
        .collect()
}

fn place(numbers: &[u32]) -> [u16; 3] {
    let place = <[u32; 3]>::try_from(numbers).unwrap();
    place.map(|number| number as u16)
}

fn told_port(line: &[u32]) -> Port {
    Port {
        at: place(&line[..3]),
        kind: line[3] as u8,
        facing: line[4] as u8,
    }
}

fn told_sink(line: &[u32]) -> Sink {
    let sink = Sink::from(told_port(line));
    Sink {
        tail: line.get(5).map_or(sink.tail, |tail| *tail as u8),
        ..sink
    }
}

fn told_block(line: &[u32]) -> Block {
    Block {
        node: line[0] as u16,
        at: place(&line[1..4]),
        kind: line[4] as u8,
        facing: line[5] as u8,
    }
}

/// The job that a shown sheet tells.
fn told_job(text: &str) -> Job {
    let one = |word| <[_; 1]>::try_from(told(text, word)).unwrap()[0].clone();
    let places = |word| told(text, word).iter().map(|line| place(line)).collect();
    let costs = one("costs");
    let version = told(text, "version").concat();
    let run = told(text, "run").concat();
    Job {
        version: match version[..] {
            [] => Version::ONE,
            _ => Version::TWO,
        },
        run: run.first().map_or(USUAL_RUN, |run| *run as u8),
        sides: place(&one("room")),
        config: Config {
            node_limit: one("limit")[0],
            horizontal: costs[0],
            stair: costs[1],
            support: costs[2],
        },
        blocks: told(text, "block")
            .iter()
            .map(|line| told_block(line))
            .collect(),
        conductors: places("conductor"),
        clearances: places("clearance"),
        terminals: places("terminal"),
        reserved: places("reserved"),
        source: told_port(&one("source")),
        sinks: told(text, "sink")
            .iter()
            .map(|line| told_sink(line))
            .collect(),
    }
}

/// A shown sheet tells its buffers, its length and its job; or, where it is none, its first bytes.
#[test]
fn sheets_are_shown() {
    let (mut jobs, mut whole, mut cut) = (0, 0, 0);
    let limited = some_limit_sheets().into_iter().map(|sheet| sheet.0);
    for sheet in some_sheets().into_iter().chain(limited) {
        let text = sheet_lines(&sheet);
        let length = sheet.bytes.len();
        let head = ["queue", "branch", "lent", "bytes"].map(|word| told(&text, word).concat());
        let due = [sheet.queue, sheet.branch, sheet.lent, length as u32];
        assert_eq!(head, due.map(|number| vec![number]));
        if let Ok(job) = Job::read(&sheet.bytes) {
            assert_eq!(told_job(&text), job, "{text}");
            jobs += 1;
            continue;
        }
        let hex = text.lines().last().unwrap().strip_prefix("hex").unwrap();
        let shown = parse_hex(hex.trim_end_matches(" ..")).unwrap();
        assert_eq!(shown, sheet.bytes[..length.min(64)]);
        assert_eq!(hex.ends_with(" .."), length > 64);
        whole += usize::from(length <= 64);
        cut += usize::from(length > 64);
    }
    assert!(jobs > 300 && whole > 0 && cut > 0, "{jobs} {whole} {cut}");
}

#[test]
fn hex_is_read() {
    assert_eq!(parse_hex(" 01 fF\n0a"), Ok(vec![1, 255, 10]));
    assert!(parse_hex("012").is_err());
    assert!(parse_hex("0g").is_err());
}
