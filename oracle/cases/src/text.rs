//! Text forms: one search as text, the answers as lines, and a sheet's job for a reader.

use std::fmt::Write;

use crate::Refusal;
use crate::drawing::{Drawing, DrawingAnswer};
use crate::function::{Function, FunctionAnswer};
use crate::lists::{List, sheets};
use crate::nets::ListAnswer;
use crate::parts::{Parts, PartsAnswer};
use crate::plan::{Plan, PlanAnswer};
use crate::room::{Config, kind};
use crate::search::{Search, SearchAnswer};
use crate::sheet::{Job, Port, Sheet, TreeAnswer};
use crate::tree::Mode;
use crate::tree_why::{TreeWhy, TreeWhyAnswer};
use crate::why::{Told, Why, WhyAnswer};

/// What is written for a list: a blank before each.
fn listed<T: ToString>(items: impl IntoIterator<Item = T>) -> String {
    items
        .into_iter()
        .map(|item| format!(" {}", item.to_string()))
        .collect()
}

fn refused(refusal: &Refusal) -> String {
    format!("refused {} {}\n", refusal.number, refusal.detail)
}

/// `route COST EXPANDED` and `path` with its cells, or `refused` with number and detail.
pub fn search_answer_lines(answer: &SearchAnswer) -> String {
    match answer {
        SearchAnswer::Refused(refusal) => refused(refusal),
        SearchAnswer::Route {
            path,
            cost,
            expanded,
        } => format!("route {cost} {expanded}\npath{}\n", listed(path)),
    }
}

/// A search in the form that `parse_search` reads, with the lengths of the reason's two outputs as a comment.
pub fn why_lines(case: &Why) -> String {
    let search = search_lines(&case.search);
    format!("{search}# reached {} walls {}\n", case.reached, case.walls)
}

/// The search's lines, then `reached` with a cell and its twelve moves for each cell reached.
pub fn why_answer_lines(answer: &WhyAnswer) -> String {
    search_answer_lines(&answer.search) + &told_lines(&answer.reached)
}

fn told_lines(reached: &[Told]) -> String {
    let told = reached.iter();
    told.map(|told| format!("reached {}:{}\n", told.cell, listed(told.moves)))
        .collect()
}

/// A sheet's limits and job, with its mode and the lengths of the reason's three outputs.
pub fn tree_why_lines(case: &TreeWhy) -> String {
    let strict = case.mode == Mode::Strict;
    let outputs = listed([case.reached, case.walls, case.causes]);
    let sheet = sheet_lines(&case.sheet);
    format!("strict {strict}\noutputs{outputs}\n{sheet}")
}

/// The tree's lines; then `sink` with its place and verdict, `reached` with a cell and its twelve moves for each cell reached, and
/// `causes` with each blocked cell and its bits.
pub fn tree_why_answer_lines(answer: &TreeWhyAnswer) -> String {
    let tree = tree_answer_lines(&answer.tree);
    let Some(reason) = &answer.reason else {
        return tree;
    };
    let causes = reason.causes.iter();
    let causes = listed(causes.map(|(cell, bits)| format!("{cell}:{bits}")));
    format!(
        "{tree}sink {} verdict {}\n{}causes{causes}\n",
        reason.place,
        reason.verdict,
        told_lines(&reason.reached)
    )
}

/// What is written or read: the room's sides, the lent lengths, and the kinds and facings or the text.
pub fn function_lines(case: &Function) -> String {
    match case {
        Function::Write(case) => format!(
            "write{}\nlent {}\nkinds{}\nfacings{}\n",
            listed(case.sides),
            case.lent,
            listed(&case.kinds),
            listed(&case.facings)
        ),
        Function::Read(case) => format!(
            "read{}\nlent {} {}\ntext {}\n",
            listed(case.sides),
            case.kinds,
            case.facings,
            case.text.escape_ascii()
        ),
    }
}

/// `text` with its bytes, `room` with its lines, kinds and facings, or `refused` with number and detail.
pub fn function_answer_lines(answer: &FunctionAnswer) -> String {
    match answer {
        FunctionAnswer::Refused(refusal) => refused(refusal),
        FunctionAnswer::Text(text) => format!("text {}\n", text.escape_ascii()),
        FunctionAnswer::Room(laid) => format!(
            "room {}\nkinds{}\nfacings{}\n",
            laid.lines,
            listed(&laid.kinds),
            listed(&laid.facings)
        ),
    }
}

/// A list's mode, what is lent, and its sheets, each with the number of its net.
pub fn list_lines(case: &List) -> String {
    let strict = case.mode == Mode::Strict;
    let mut text = format!(
        "strict {strict}\nqueue {}\nbranch {}\nlengths {}\nlent {}\nbytes {}\n",
        case.queue,
        case.branch,
        case.lengths,
        case.lent,
        case.bytes.len()
    );
    for (net, bytes) in sheets(&case.bytes).into_iter().enumerate() {
        text += &format!("net {net} bytes {}\n{}", bytes.len(), bytes_lines(bytes));
    }
    text
}

/// `nets` with their count, of each net `net` with its number and a line for each branch; `owners`, `repeaters`, `kinds` and `facings`; or `refused`
/// with number and detail, and the net.
pub fn list_answer_lines(answer: &ListAnswer) -> String {
    let laid = match answer {
        ListAnswer::Refused(told) => {
            return format!("net {}\n{}", told.net, refused(&told.refusal));
        }
        ListAnswer::Nets(laid) => laid,
    };
    let mut text = format!("nets {}\n", laid.nets.len());
    for (net, branches) in laid.nets.iter().enumerate() {
        text += &format!("net {net}\n");
        for branch in branches {
            text += &format!("branch{}\n", listed(branch));
        }
    }
    text + &format!(
        "owners{}\nrepeaters{}\nkinds{}\nfacings{}\n",
        listed(&laid.owners),
        listed(&laid.repeaters),
        listed(&laid.kinds),
        listed(&laid.facings)
    )
}

/// A net of which repeaters are asked, for a reader.
pub fn plan_lines(case: &Plan) -> String {
    format!(
        "# room{} run {} marks {} work{}\n# source{}\n# sinks{}\n# branches{}\n# lengths{}\n",
        listed(case.sides),
        case.run,
        case.marks,
        listed(case.work),
        listed(&case.source),
        listed(&case.sinks),
        listed(&case.branches),
        listed(&case.lengths)
    )
}

pub fn plan_answer_lines(answer: &PlanAnswer) -> String {
    match answer {
        PlanAnswer::Refused(refusal) => refused(refusal),
        PlanAnswer::Repeaters(cells) => format!("repeaters{}\n", listed(cells)),
    }
}

/// A job's parts, for a reader.
pub fn parts_lines(case: &Parts) -> String {
    let config = &case.config;
    let costs = [config.horizontal, config.stair, config.support];
    let mut lines = format!(
        "# room{} limit {} costs{} run {} lent {}\n",
        listed(case.sides),
        config.node_limit,
        listed(costs),
        case.run,
        case.lent
    );
    let names = ["conductors", "clearances", "terminals", "reserved"];
    let lists = [
        ("blocks", &case.blocks),
        ("source", &case.source),
        ("sinks", &case.sinks),
    ];
    for (name, list) in lists.into_iter().chain(names.into_iter().zip(&case.lists)) {
        lines += &format!("# {name}{}\n", listed(list));
    }
    lines
}

pub fn parts_answer_lines(answer: &PartsAnswer) -> String {
    match answer {
        PartsAnswer::Refused(refusal) => refused(refusal),
        PartsAnswer::Sheet(bytes) => format!("sheet {}\n", hex_words(bytes).join(" ")),
    }
}

/// A drawing for a reader.
pub fn drawing_lines(case: &Drawing) -> String {
    format!(
        "# room{} support {} run {} cells {} facings {}\n# kinds{}\n# path{}\n",
        listed(case.sides),
        case.support,
        case.run,
        case.cells,
        case.facings,
        listed(&case.kinds),
        listed(&case.path)
    )
}

/// The two numbers, each with the room's kinds, and the list: each cell with its facing.
pub fn drawing_answer_lines(answer: &DrawingAnswer) -> String {
    let entries = answer.repeaters.iter();
    let entries = entries.map(|entry| format!("{}:{}", entry.cell, entry.facing));
    format!(
        "laid {}\nkinds{}\nlisted {}\nkinds{}\nrepeaters{}\n",
        answer.laid,
        listed(&answer.kinds),
        answer.listed,
        listed(&answer.repeatered),
        listed(entries)
    )
}

/// The lines that program `route` prints.
pub fn tree_answer_lines(answer: &TreeAnswer) -> String {
    match answer {
        TreeAnswer::Refused(refusal) => refused(refusal),
        TreeAnswer::Tree {
            branches,
            occupied,
            repeaters,
        } => {
            let lines: String = branches
                .iter()
                .map(|branch| format!("branch{}\n", listed(branch)))
                .collect();
            let count = branches.len();
            format!(
                "net {count} {occupied}\n{lines}repeaters{}\n",
                listed(repeaters)
            )
        }
    }
}

/// A search in the form that `parse_search` reads.
pub fn search_lines(case: &Search) -> String {
    let Config {
        node_limit,
        horizontal,
        stair,
        support,
    } = case.config;
    format!(
        "room{}\nlimit {node_limit}\ncosts {horizontal} {stair} {support}\nends {} {}\nqueue {}\nlent {}\nkinds{}\n",
        listed(case.sides),
        case.start,
        case.goal,
        case.queue,
        case.lent,
        listed(runs(&case.kinds)),
    )
}

/// Kinds as `KIND` or `KIND*COUNT`.
fn runs(kinds: &[u8]) -> Vec<String> {
    kinds
        .chunk_by(|a, b| a == b)
        .map(|run| match run.len() {
            1 => run[0].to_string(),
            length => format!("{}*{length}", run[0]),
        })
        .collect()
}

/// Reads a search: a line each for `room X Y Z` and `ends START GOAL`, and where they differ from the defaults
/// `limit N`, `costs HORIZONTAL STAIR SUPPORT`, `queue N`, `lent N`, `kinds` with the whole list, `kind CELL KIND`.
/// The defaults are 30,000; 10, 25, 15; 12V; V; Air everywhere. A line that begins with `#` is skipped.
pub fn parse_search(text: &str) -> Result<Search, String> {
    let mut draft = Draft::default();
    for (line, number) in text.lines().zip(1..) {
        draft
            .line(line)
            .map_err(|error| format!("line {number}: {error}"))?;
    }
    draft.search()
}

/// Larger lists of kinds are refused when read, so that a slip does not ask for gigabytes.
const MOST_KINDS: usize = 1 << 20;

#[derive(Default)]
struct Draft {
    room: Option<Vec<u32>>,
    limit: Option<Vec<u32>>,
    costs: Option<Vec<u32>>,
    ends: Option<Vec<u32>>,
    queue: Option<Vec<u32>>,
    lent: Option<Vec<u32>>,
    kinds: Option<Vec<u8>>,
    changes: Vec<Vec<u32>>,
}

impl Draft {
    fn line(&mut self, line: &str) -> Result<(), String> {
        let mut words = line.split_whitespace();
        let Some(key) = words.next().filter(|key| !key.starts_with('#')) else {
            return Ok(());
        };
        let (place, count) = match key {
            "room" => (&mut self.room, 3),
            "limit" => (&mut self.limit, 1),
            "costs" => (&mut self.costs, 3),
            "ends" => (&mut self.ends, 2),
            "queue" => (&mut self.queue, 1),
            "lent" => (&mut self.lent, 1),
            "kinds" => return fill(&mut self.kinds, key, kinds(words)?),
            "kind" => {
                self.changes.push(numbers(words, 2)?);
                return Ok(());
            }
            _ => return Err(format!("unknown word {key:?}")),
        };
        fill(place, key, numbers(words, count)?)
    }

    fn search(self) -> Result<Search, String> {
        let sides = self.room.ok_or("no line `room X Y Z`")?;
        let ends = self.ends.ok_or("no line `ends START GOAL`")?;
        let sides: Vec<u8> = sides
            .iter()
            .map(|side| u8::try_from(*side).map_err(|_| format!("room: {side} is over 255")))
            .collect::<Result<_, _>>()?;
        let cells: usize = sides.iter().map(|side| usize::from(*side)).product();
        let mut kinds = match self.kinds {
            Some(kinds) => kinds,
            None if cells > MOST_KINDS => return Err("room: too many cells".into()),
            None => vec![kind::AIR; cells],
        };
        for change in &self.changes {
            change_kind(&mut kinds, change[0], change[1])?;
        }
        let default = Config::DEFAULT;
        let costs = self
            .costs
            .unwrap_or(vec![default.horizontal, default.stair, default.support]);
        let one = |line: Option<Vec<u32>>, default| line.map_or(default, |numbers| numbers[0]);
        Ok(Search {
            sides: [sides[0], sides[1], sides[2]].map(u16::from),
            config: Config {
                node_limit: one(self.limit, default.node_limit),
                horizontal: costs[0],
                stair: costs[1],
                support: costs[2],
            },
            start: ends[0],
            goal: ends[1],
            queue: one(self.queue, 12 * cells as u32),
            lent: one(self.lent, cells as u32),
            kinds,
        })
    }
}

fn fill<T>(place: &mut Option<T>, key: &str, value: T) -> Result<(), String> {
    match place.replace(value) {
        None => Ok(()),
        Some(_) => Err(format!("a second line {key:?}")),
    }
}

fn numbers<'a>(words: impl Iterator<Item = &'a str>, count: usize) -> Result<Vec<u32>, String> {
    let numbers: Vec<u32> = words.map(number).collect::<Result<_, _>>()?;
    if numbers.len() == count {
        Ok(numbers)
    } else {
        Err(format!("{count} numbers wanted, {} found", numbers.len()))
    }
}

/// A number from 0 to 4,294,967,295.
pub fn number(word: &str) -> Result<u32, String> {
    word.parse()
        .map_err(|_| format!("not a number that fits four bytes: {word:?}"))
}

fn kinds<'a>(words: impl Iterator<Item = &'a str>) -> Result<Vec<u8>, String> {
    let mut kinds = Vec::new();
    for word in words {
        let (kind, count) = word.split_once('*').unwrap_or((word, "1"));
        let count = number(count)? as usize;
        if kinds.len() + count > MOST_KINDS {
            return Err("too many kinds".into());
        }
        kinds.resize(kinds.len() + count, byte(number(kind)?)?);
    }
    Ok(kinds)
}

fn byte(number: u32) -> Result<u8, String> {
    u8::try_from(number).map_err(|_| format!("{number} is over 255"))
}

fn change_kind(kinds: &mut [u8], cell: u32, kind: u32) -> Result<(), String> {
    let place = kinds
        .get_mut(cell as usize)
        .ok_or_else(|| format!("kind: cell {cell} is outside"))?;
    *place = byte(kind)?;
    Ok(())
}

/// A sheet's limits and job, for a reader; a sheet with number 1 is shown by its bytes.
pub fn sheet_lines(case: &Sheet) -> String {
    let Sheet {
        queue,
        branch,
        lent,
        bytes,
    } = case;
    let size = bytes.len();
    let job = bytes_lines(bytes);
    format!("queue {queue}\nbranch {branch}\nlent {lent}\nbytes {size}\n{job}")
}

/// The job of a sheet's bytes, or where it has number 1 the bytes.
fn bytes_lines(bytes: &[u8]) -> String {
    match Job::read(bytes) {
        Ok(job) => job_lines(&job),
        Err(_) => format!("hex{}\n", listed(hex_words(bytes))),
    }
}

/// The first bytes, in hex.
fn hex_words(bytes: &[u8]) -> Vec<String> {
    let shown = &bytes[..bytes.len().min(64)];
    let mut words: Vec<_> = shown.iter().map(|byte| format!("{byte:02X}")).collect();
    if shown.len() < bytes.len() {
        words.push("..".into());
    }
    words
}

fn job_lines(job: &Job) -> String {
    let Config {
        node_limit,
        horizontal,
        stair,
        support,
    } = job.config;
    let mut text = format!(
        "room{}\nlimit {node_limit}\ncosts {horizontal} {stair} {support}\n",
        listed(job.sides)
    );
    if job.version.limits {
        text += &format!("version {}\nrun {}\n", job.version.number, job.run);
    }
    for block in &job.blocks {
        let (node, kind, facing) = (block.node, block.kind, block.facing);
        let _ = writeln!(
            text,
            "block node {node} at{} kind {kind} facing {facing}",
            listed(block.at)
        );
    }
    for (name, list) in [
        ("conductor", &job.conductors),
        ("clearance", &job.clearances),
        ("terminal", &job.terminals),
        ("reserved", &job.reserved),
    ] {
        for at in list {
            let _ = writeln!(text, "{name}{}", listed(at));
        }
    }
    let _ = writeln!(text, "{}", port_line("source", &job.source));
    for sink in &job.sinks {
        text += &port_line("sink", &sink.port);
        if job.version.limits {
            text += &format!(" tail {}", sink.tail);
        }
        text.push('\n');
    }
    text
}

fn port_line(name: &str, port: &Port) -> String {
    format!(
        "{name}{} port {} facing {}",
        listed(port.at),
        port.kind,
        port.facing
    )
}

/// Bytes from hex digits; blanks are skipped.
pub fn parse_hex(text: &str) -> Result<Vec<u8>, String> {
    let digits: Vec<u8> = text
        .bytes()
        .filter(|byte| !byte.is_ascii_whitespace())
        .map(|byte| hex_digit(byte).ok_or_else(|| format!("not hex: {:?}", char::from(byte))))
        .collect::<Result<_, _>>()?;
    if digits.len() % 2 == 1 {
        return Err("an odd number of hex digits".into());
    }
    Ok(digits
        .chunks(2)
        .map(|pair| pair[0] << 4 | pair[1])
        .collect())
}

fn hex_digit(byte: u8) -> Option<u8> {
    char::from(byte).to_digit(16).map(|digit| digit as u8)
}
