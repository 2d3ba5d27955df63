//! Files of cases, big-endian throughout. `DRS1`, `DRT1`, `DRM1`, `DRW1`, `DRY1`, `DRF1`, `DRD1`, `DRR1`, `DRP1` and `DRN1` hold searches, sheets,
//! sheets in strict mode, searches with their reason, sheets with theirs, function files, drawings, plans of repeaters, parts of jobs and lists
//! of nets, each with its answer; with 0 in place of 1 the same records without answers.

use crate::Refusal;
use crate::drawing::{Drawing, DrawingAnswer, Repeater};
use crate::function::{Function, FunctionAnswer, Laid, Reading, Writing};
use crate::limits::LimitSheet;
use crate::lists::{List, NetRefusal};
use crate::nets::{LaidNets, ListAnswer};
use crate::parts::{Parts, PartsAnswer};
use crate::plan::{Plan, PlanAnswer};
use crate::room::Config;
use crate::search::{Search, SearchAnswer};
use crate::sheet::{Sheet, TreeAnswer};
use crate::strict::StrictSheet;
use crate::tree::Mode;
use crate::tree_why::{SinkReason, TreeWhy, TreeWhyAnswer, verdict};
use crate::why::{Told, Why, WhyAnswer};

/// A kind of case that can be kept in a file.
pub trait Case: Sized {
    type Answer;
    /// Magic of a file of bare cases, and of one with answers.
    const BARE: [u8; 4];
    const ANSWERED: [u8; 4];

    fn write(&self, out: &mut Vec<u8>);
    fn read(input: &mut Input) -> Result<Self, String>;
    fn write_answer(answer: &Self::Answer, out: &mut Vec<u8>);
    fn read_answer(input: &mut Input) -> Result<Self::Answer, String>;
}

/// A file's cases; each has an answer or none has.
pub type Cases<C> = Vec<(C, Option<<C as Case>::Answer>)>;

/// A file of bare cases.
pub fn write_bare<C: Case>(cases: &[C]) -> Vec<u8> {
    let mut out = C::BARE.to_vec();
    put(&mut out, cases.len());
    for case in cases {
        case.write(&mut out);
    }
    out
}

/// A file of cases with their answers.
pub fn write_answered<C: Case>(cases: &[(C, C::Answer)]) -> Vec<u8> {
    let mut out = C::ANSWERED.to_vec();
    put(&mut out, cases.len());
    for (case, answer) in cases {
        case.write(&mut out);
        C::write_answer(answer, &mut out);
    }
    out
}

/// Reads a file of either form.
pub fn read<C: Case>(bytes: &[u8]) -> Result<Cases<C>, String> {
    let mut input = Input { rest: bytes };
    let magic: [u8; 4] = input.take()?;
    if magic != C::BARE && magic != C::ANSWERED {
        let want = [C::BARE, C::ANSWERED].map(|magic| String::from_utf8_lossy(&magic).into_owned());
        return Err(format!("does not begin with {} or {}", want[0], want[1]));
    }
    let count = input.number()?;
    let mut cases = Vec::new();
    for index in 0..count {
        let case = read_one(&mut input, magic == C::ANSWERED);
        cases.push(case.map_err(|error| format!("case {index} of {count}: {error}"))?);
    }
    if input.rest.is_empty() {
        Ok(cases)
    } else {
        Err(format!("{} bytes left over", input.rest.len()))
    }
}

fn read_one<C: Case>(input: &mut Input, answered: bool) -> Result<(C, Option<C::Answer>), String> {
    let case = C::read(input)?;
    let answer = answered.then(|| C::read_answer(input)).transpose()?;
    Ok((case, answer))
}

/// The bytes of a file that are not read yet.
pub struct Input<'a> {
    rest: &'a [u8],
}

impl<'a> Input<'a> {
    fn take<const N: usize>(&mut self) -> Result<[u8; N], String> {
        let (taken, rest) = self
            .rest
            .split_first_chunk()
            .ok_or("the file is cut short")?;
        self.rest = rest;
        Ok(*taken)
    }

    fn byte(&mut self) -> Result<u8, String> {
        self.take().map(|[byte]| byte)
    }

    fn number(&mut self) -> Result<u32, String> {
        self.take().map(u32::from_be_bytes)
    }

    /// A room's sides, a byte each.
    fn sides(&mut self) -> Result<[u16; 3], String> {
        self.take().map(|sides: [u8; 3]| sides.map(u16::from))
    }

    fn bytes(&mut self, length: usize) -> Result<&'a [u8], String> {
        let (taken, rest) = self
            .rest
            .split_at_checked(length)
            .ok_or("the file is cut short")?;
        self.rest = rest;
        Ok(taken)
    }

    /// A four-byte count and that many bytes.
    fn counted_bytes(&mut self) -> Result<Vec<u8>, String> {
        let count = self.number()?;
        self.bytes(count as usize).map(<[u8]>::to_vec)
    }

    /// A four-byte count and that many two-byte cells.
    fn cells(&mut self) -> Result<Vec<u16>, String> {
        let count = self.number()?;
        let bytes = self.bytes(count as usize * 2)?;
        let cells = bytes.chunks_exact(2);
        Ok(cells
            .map(|cell| u16::from_be_bytes([cell[0], cell[1]]))
            .collect())
    }

    /// A four-byte count and that many four-byte numbers.
    fn numbers(&mut self) -> Result<Vec<u32>, String> {
        let count = self.number()?;
        (0..count).map(|_| self.number()).collect()
    }

    /// So many cells, each with its twelve moves.
    fn told(&mut self, count: u32) -> Result<Vec<Told>, String> {
        let told = |_| {
            Ok(Told {
                cell: u16::from_be_bytes(self.take()?),
                moves: self.take()?,
            })
        };
        (0..count).map(told).collect()
    }

    fn refusal(&mut self) -> Result<Refusal, String> {
        Ok(Refusal::new(self.byte()?, self.number()?))
    }

    fn mode(&mut self) -> Result<Mode, String> {
        match self.byte()? {
            0 => Ok(Mode::Published),
            1 => Ok(Mode::Strict),
            other => Err(format!("no mode: {other}")),
        }
    }

    /// A one-byte count and that many branches.
    fn branches(&mut self) -> Result<Vec<Vec<u16>>, String> {
        let count = self.byte()?;
        (0..count).map(|_| self.cells()).collect()
    }
}

fn put(out: &mut Vec<u8>, number: usize) {
    put32(
        out,
        u32::try_from(number).expect("a length fits four bytes"),
    );
}

/// A room's sides, a byte each: larger rooms are kept in sheets alone.
fn put_sides(out: &mut Vec<u8>, sides: [u16; 3]) {
    out.extend(sides.map(|side| u8::try_from(side).expect("a side of one byte")));
}

fn put32(out: &mut Vec<u8>, number: u32) {
    out.extend(number.to_be_bytes());
}

fn put_bytes(out: &mut Vec<u8>, bytes: &[u8]) {
    put(out, bytes.len());
    out.extend(bytes);
}

fn put_cells(out: &mut Vec<u8>, cells: &[u16]) {
    put(out, cells.len());
    out.extend(cells.iter().flat_map(|cell| cell.to_be_bytes()));
}

fn put_numbers(out: &mut Vec<u8>, numbers: &[u32]) {
    put(out, numbers.len());
    out.extend(numbers.iter().flat_map(|number| number.to_be_bytes()));
}

/// A count, and so many cells with their twelve moves.
fn put_told(out: &mut Vec<u8>, reached: &[Told]) {
    put(out, reached.len());
    for told in reached {
        out.extend(told.cell.to_be_bytes());
        out.extend(told.moves);
    }
}

/// A one-byte count, and so many branches.
fn put_branches(out: &mut Vec<u8>, branches: &[Vec<u16>]) {
    out.push(branches.len() as u8);
    for branch in branches {
        put_cells(out, branch);
    }
}

fn put_mode(out: &mut Vec<u8>, mode: Mode) {
    out.push(u8::from(mode == Mode::Strict));
}

/// Number and detail: those of a refusal, or both 0.
fn put_refusal(out: &mut Vec<u8>, refusal: Refusal) {
    out.push(refusal.number);
    put32(out, refusal.detail);
}

const NO_REFUSAL: Refusal = Refusal::bare(0);

impl Case for Search {
    type Answer = SearchAnswer;
    const BARE: [u8; 4] = *b"DRS0";
    const ANSWERED: [u8; 4] = *b"DRS1";

    fn write(&self, out: &mut Vec<u8>) {
        put_sides(out, self.sides);
        let config = &self.config;
        put32(out, config.node_limit);
        put32(out, config.horizontal);
        put32(out, config.stair);
        put32(out, config.support);
        put32(out, self.start);
        put32(out, self.goal);
        put32(out, self.queue);
        put32(out, self.lent);
        put_bytes(out, &self.kinds);
    }

    fn read(input: &mut Input) -> Result<Self, String> {
        Ok(Self {
            sides: input.sides()?,
            config: Config {
                node_limit: input.number()?,
                horizontal: input.number()?,
                stair: input.number()?,
                support: input.number()?,
            },
            start: input.number()?,
            goal: input.number()?,
            queue: input.number()?,
            lent: input.number()?,
            kinds: input.counted_bytes()?,
        })
    }

    fn write_answer(answer: &SearchAnswer, out: &mut Vec<u8>) {
        let (refusal, cost, expanded, path) = match answer {
            SearchAnswer::Refused(refusal) => (*refusal, 0, 0, [].as_slice()),
            SearchAnswer::Route {
                path,
                cost,
                expanded,
            } => (NO_REFUSAL, *cost, *expanded, path.as_slice()),
        };
        put_refusal(out, refusal);
        put32(out, cost);
        put32(out, expanded);
        put_cells(out, path);
    }

    fn read_answer(input: &mut Input) -> Result<SearchAnswer, String> {
        let refusal = input.refusal()?;
        let (cost, expanded, path) = (input.number()?, input.number()?, input.cells()?);
        match refusal {
            NO_REFUSAL => Ok(SearchAnswer::Route {
                path,
                cost,
                expanded,
            }),
            Refusal {
                number: 2..=6,
                detail: 0,
            }
            | Refusal {
                number: 10..=13, ..
            } if cost == 0 && expanded == 0 && path.is_empty() => {
                Ok(SearchAnswer::Refused(refusal))
            }
            _ => Err(format!("no answer of a search: {refusal:?}")),
        }
    }
}

impl Case for Sheet {
    type Answer = TreeAnswer;
    const BARE: [u8; 4] = *b"DRT0";
    const ANSWERED: [u8; 4] = *b"DRT1";

    fn write(&self, out: &mut Vec<u8>) {
        put32(out, self.queue);
        put32(out, self.branch);
        put32(out, self.lent);
        put_bytes(out, &self.bytes);
    }

    fn read(input: &mut Input) -> Result<Self, String> {
        Ok(Self {
            queue: input.number()?,
            branch: input.number()?,
            lent: input.number()?,
            bytes: input.counted_bytes()?,
        })
    }

    fn write_answer(answer: &TreeAnswer, out: &mut Vec<u8>) {
        match answer {
            TreeAnswer::Refused(refusal) => put_refusal(out, *refusal),
            TreeAnswer::Tree {
                branches,
                occupied,
                repeaters,
            } => {
                put_refusal(out, NO_REFUSAL);
                put_branches(out, branches);
                put32(out, *occupied);
                put_cells(out, repeaters);
            }
        }
    }

    fn read_answer(input: &mut Input) -> Result<TreeAnswer, String> {
        match input.refusal()? {
            NO_REFUSAL => Ok(TreeAnswer::Tree {
                branches: input.branches()?,
                occupied: input.number()?,
                repeaters: input.cells()?,
            }),
            refusal @ (Refusal {
                number: 1..=6,
                detail: 0,
            }
            | Refusal {
                number: 7..=9 | 13..=15,
                ..
            }) => Ok(TreeAnswer::Refused(refusal)),
            refusal => Err(format!("no answer of a tree: {refusal:?}")),
        }
    }
}

/// A file of sheets, whatever limits they carry: `Sheet` reads it as well.
impl Case for LimitSheet {
    type Answer = TreeAnswer;
    const BARE: [u8; 4] = Sheet::BARE;
    const ANSWERED: [u8; 4] = Sheet::ANSWERED;

    fn write(&self, out: &mut Vec<u8>) {
        self.0.write(out);
    }

    fn read(input: &mut Input) -> Result<Self, String> {
        Sheet::read(input).map(Self)
    }

    fn write_answer(answer: &TreeAnswer, out: &mut Vec<u8>) {
        Sheet::write_answer(answer, out);
    }

    fn read_answer(input: &mut Input) -> Result<TreeAnswer, String> {
        Sheet::read_answer(input)
    }
}

impl Case for StrictSheet {
    type Answer = TreeAnswer;
    const BARE: [u8; 4] = *b"DRM0";
    const ANSWERED: [u8; 4] = *b"DRM1";

    fn write(&self, out: &mut Vec<u8>) {
        self.0.write(out);
    }

    fn read(input: &mut Input) -> Result<Self, String> {
        Sheet::read(input).map(Self)
    }

    fn write_answer(answer: &TreeAnswer, out: &mut Vec<u8>) {
        Sheet::write_answer(answer, out);
    }

    fn read_answer(input: &mut Input) -> Result<TreeAnswer, String> {
        Sheet::read_answer(input)
    }
}

impl Case for Why {
    type Answer = WhyAnswer;
    const BARE: [u8; 4] = *b"DRW0";
    const ANSWERED: [u8; 4] = *b"DRW1";

    fn write(&self, out: &mut Vec<u8>) {
        self.search.write(out);
        put32(out, self.reached);
        put32(out, self.walls);
    }

    fn read(input: &mut Input) -> Result<Self, String> {
        Ok(Self {
            search: Search::read(input)?,
            reached: input.number()?,
            walls: input.number()?,
        })
    }

    fn write_answer(answer: &WhyAnswer, out: &mut Vec<u8>) {
        Search::write_answer(&answer.search, out);
        put_told(out, &answer.reached);
    }

    fn read_answer(input: &mut Input) -> Result<WhyAnswer, String> {
        let search = Search::read_answer(input)?;
        let count = input.number()?;
        if count > 0 && search.number() != 11 {
            return Err(format!("{count} cells reached, but it is not number 11"));
        }
        Ok(WhyAnswer {
            search,
            reached: input.told(count)?,
        })
    }
}

impl Case for TreeWhy {
    type Answer = TreeWhyAnswer;
    const BARE: [u8; 4] = *b"DRY0";
    const ANSWERED: [u8; 4] = *b"DRY1";

    fn write(&self, out: &mut Vec<u8>) {
        put_mode(out, self.mode);
        self.sheet.write(out);
        put32(out, self.reached);
        put32(out, self.walls);
        put32(out, self.causes);
    }

    fn read(input: &mut Input) -> Result<Self, String> {
        Ok(Self {
            mode: input.mode()?,
            sheet: Sheet::read(input)?,
            reached: input.number()?,
            walls: input.number()?,
            causes: input.number()?,
        })
    }

    fn write_answer(answer: &TreeWhyAnswer, out: &mut Vec<u8>) {
        Sheet::write_answer(&answer.tree, out);
        let Some(reason) = &answer.reason else { return };
        out.extend([reason.place, reason.verdict]);
        put_told(out, &reason.reached);
        put(out, reason.causes.len());
        for (cell, bits) in &reason.causes {
            out.extend(cell.to_be_bytes());
            out.push(*bits);
        }
    }

    fn read_answer(input: &mut Input) -> Result<TreeWhyAnswer, String> {
        let tree = Sheet::read_answer(input)?;
        if !matches!(tree.number(), 13 | 14) {
            return Ok(TreeWhyAnswer { tree, reason: None });
        }
        let [place, verdict] = input.take()?;
        let count = input.number()?;
        let reached = input.told(count)?;
        let count = input.number()?;
        let cause = |_| Ok((u16::from_be_bytes(input.take()?), input.byte()?));
        let causes = (0..count).map(cause).collect::<Result<Vec<_>, String>>()?;
        if verdict != verdict::SHUT_IN && !(reached.is_empty() && causes.is_empty()) {
            return Err("cells are told, but the sink is not shut in".into());
        }
        let reason = Some(SinkReason {
            place,
            verdict,
            reached,
            causes,
        });
        Ok(TreeWhyAnswer { tree, reason })
    }
}

impl Case for Parts {
    type Answer = PartsAnswer;
    const BARE: [u8; 4] = *b"DRP0";
    const ANSWERED: [u8; 4] = *b"DRP1";

    fn write(&self, out: &mut Vec<u8>) {
        let config = &self.config;
        let costs = [config.horizontal, config.stair, config.support];
        for number in [&self.sides[..], &[config.node_limit], &costs, &[self.run]].concat() {
            put32(out, number);
        }
        put_cells(out, &self.blocks);
        for list in &self.lists {
            put_cells(out, list);
        }
        put_cells(out, &self.source);
        put_cells(out, &self.sinks);
        put32(out, self.lent);
    }

    fn read(input: &mut Input) -> Result<Self, String> {
        Ok(Self {
            sides: [input.number()?, input.number()?, input.number()?],
            config: Config {
                node_limit: input.number()?,
                horizontal: input.number()?,
                stair: input.number()?,
                support: input.number()?,
            },
            run: input.number()?,
            blocks: input.cells()?,
            lists: [
                input.cells()?,
                input.cells()?,
                input.cells()?,
                input.cells()?,
            ],
            source: input.cells()?,
            sinks: input.cells()?,
            lent: input.number()?,
        })
    }

    fn write_answer(answer: &PartsAnswer, out: &mut Vec<u8>) {
        out.push(answer.number());
        if let PartsAnswer::Sheet(bytes) = answer {
            put_bytes(out, bytes);
        }
    }

    fn read_answer(input: &mut Input) -> Result<PartsAnswer, String> {
        match input.byte()? {
            0 => input.counted_bytes().map(PartsAnswer::Sheet),
            number @ 1..=6 => Ok(PartsAnswer::Refused(Refusal::bare(number))),
            other => Err(format!("no number of a writer: {other}")),
        }
    }
}

/// What a record of a function file asks.
const WRITE: u8 = 0;
const READ: u8 = 1;

impl Case for Function {
    type Answer = FunctionAnswer;
    const BARE: [u8; 4] = *b"DRF0";
    const ANSWERED: [u8; 4] = *b"DRF1";

    fn write(&self, out: &mut Vec<u8>) {
        match self {
            Self::Write(case) => {
                out.push(WRITE);
                put_sides(out, case.sides);
                put32(out, case.lent);
                put_bytes(out, &case.kinds);
                put_bytes(out, &case.facings);
            }
            Self::Read(case) => {
                out.push(READ);
                put_sides(out, case.sides);
                put32(out, case.kinds);
                put32(out, case.facings);
                put_bytes(out, &case.text);
            }
        }
    }

    fn read(input: &mut Input) -> Result<Self, String> {
        match input.byte()? {
            WRITE => Ok(Self::Write(Writing {
                sides: input.sides()?,
                lent: input.number()?,
                kinds: input.counted_bytes()?,
                facings: input.counted_bytes()?,
            })),
            READ => Ok(Self::Read(Reading {
                sides: input.sides()?,
                kinds: input.number()?,
                facings: input.number()?,
                text: input.counted_bytes()?,
            })),
            other => Err(format!("neither written nor read: {other}")),
        }
    }

    fn write_answer(answer: &FunctionAnswer, out: &mut Vec<u8>) {
        match answer {
            FunctionAnswer::Refused(refusal) => put_refusal(out, *refusal),
            FunctionAnswer::Text(text) => {
                put_refusal(out, NO_REFUSAL);
                out.push(WRITE);
                put_bytes(out, text);
            }
            FunctionAnswer::Room(laid) => {
                put_refusal(out, NO_REFUSAL);
                out.push(READ);
                put32(out, laid.lines);
                put_bytes(out, &laid.kinds);
                put_bytes(out, &laid.facings);
            }
        }
    }

    fn read_answer(input: &mut Input) -> Result<FunctionAnswer, String> {
        match input.refusal()? {
            NO_REFUSAL => match input.byte()? {
                WRITE => input.counted_bytes().map(FunctionAnswer::Text),
                READ => Ok(FunctionAnswer::Room(Laid {
                    lines: input.number()?,
                    kinds: input.counted_bytes()?,
                    facings: input.counted_bytes()?,
                })),
                other => Err(format!("neither a text nor a room: {other}")),
            },
            refusal @ (Refusal {
                number: 2 | 5 | 6 | 18,
                detail: 0,
            }
            | Refusal {
                number: 19,
                detail: 1..,
            }) => Ok(FunctionAnswer::Refused(refusal)),
            refusal => Err(format!("no answer of a function file: {refusal:?}")),
        }
    }
}

impl Case for Drawing {
    type Answer = DrawingAnswer;
    const BARE: [u8; 4] = *b"DRD0";
    const ANSWERED: [u8; 4] = *b"DRD1";

    fn write(&self, out: &mut Vec<u8>) {
        put_sides(out, self.sides);
        put32(out, self.support);
        put32(out, self.run);
        put32(out, self.cells);
        put32(out, self.facings);
        put_bytes(out, &self.kinds);
        put_numbers(out, &self.path);
    }

    fn read(input: &mut Input) -> Result<Self, String> {
        Ok(Self {
            sides: input.sides()?,
            support: input.number()?,
            run: input.number()?,
            cells: input.number()?,
            facings: input.number()?,
            kinds: input.counted_bytes()?,
            path: input.numbers()?,
        })
    }

    fn write_answer(answer: &DrawingAnswer, out: &mut Vec<u8>) {
        out.extend([answer.laid, answer.listed]);
        put_bytes(out, &answer.kinds);
        put_bytes(out, &answer.repeatered);
        put(out, answer.repeaters.len());
        for repeater in &answer.repeaters {
            out.extend(repeater.cell.to_be_bytes());
            out.push(repeater.facing);
        }
    }

    fn read_answer(input: &mut Input) -> Result<DrawingAnswer, String> {
        let [laid, listed] = input.take()?;
        if [laid, listed]
            .iter()
            .any(|number| !matches!(number, 0 | 2 | 4..=6))
        {
            return Err(format!("no numbers of a drawing: {laid}, {listed}"));
        }
        let (kinds, repeatered) = (input.counted_bytes()?, input.counted_bytes()?);
        let count = input.number()?;
        let entry = |_| {
            Ok(Repeater {
                cell: u16::from_be_bytes(input.take()?),
                facing: input.byte()?,
            })
        };
        Ok(DrawingAnswer {
            laid,
            kinds,
            listed,
            repeatered,
            repeaters: (0..count).map(entry).collect::<Result<_, String>>()?,
        })
    }
}

impl Case for Plan {
    type Answer = PlanAnswer;
    const BARE: [u8; 4] = *b"DRR0";
    const ANSWERED: [u8; 4] = *b"DRR1";

    fn write(&self, out: &mut Vec<u8>) {
        put_sides(out, self.sides);
        put32(out, self.run);
        put_cells(out, &self.source);
        put_cells(out, &self.sinks);
        put_numbers(out, &self.branches);
        put_numbers(out, &self.lengths);
        put32(out, self.marks);
        for length in self.work {
            put32(out, length);
        }
    }

    fn read(input: &mut Input) -> Result<Self, String> {
        Ok(Self {
            sides: input.sides()?,
            run: input.number()?,
            source: input.cells()?,
            sinks: input.cells()?,
            branches: input.numbers()?,
            lengths: input.numbers()?,
            marks: input.number()?,
            work: [
                input.number()?,
                input.number()?,
                input.number()?,
                input.number()?,
            ],
        })
    }

    fn write_answer(answer: &PlanAnswer, out: &mut Vec<u8>) {
        match answer {
            PlanAnswer::Refused(refusal) => put_refusal(out, *refusal),
            PlanAnswer::Repeaters(cells) => {
                put_refusal(out, NO_REFUSAL);
                put_cells(out, cells);
            }
        }
    }

    fn read_answer(input: &mut Input) -> Result<PlanAnswer, String> {
        match input.refusal()? {
            NO_REFUSAL => input.cells().map(PlanAnswer::Repeaters),
            refusal @ (Refusal {
                number: 2..=6,
                detail: 0,
            }
            | Refusal { number: 8 | 9, .. }) => Ok(PlanAnswer::Refused(refusal)),
            refusal => Err(format!("no answer of a plan: {refusal:?}")),
        }
    }
}

impl Case for List {
    type Answer = ListAnswer;
    const BARE: [u8; 4] = *b"DRN0";
    const ANSWERED: [u8; 4] = *b"DRN1";

    fn write(&self, out: &mut Vec<u8>) {
        put_mode(out, self.mode);
        for length in [self.queue, self.branch, self.lengths, self.lent] {
            put32(out, length);
        }
        put_bytes(out, &self.bytes);
    }

    fn read(input: &mut Input) -> Result<Self, String> {
        Ok(Self {
            mode: input.mode()?,
            queue: input.number()?,
            branch: input.number()?,
            lengths: input.number()?,
            lent: input.number()?,
            bytes: input.counted_bytes()?,
        })
    }

    fn write_answer(answer: &ListAnswer, out: &mut Vec<u8>) {
        match answer {
            ListAnswer::Refused(refused) => {
                put_refusal(out, refused.refusal);
                put(out, refused.net);
            }
            ListAnswer::Nets(laid) => {
                put_refusal(out, NO_REFUSAL);
                put(out, laid.nets.len());
                for branches in &laid.nets {
                    put_branches(out, branches);
                }
                put_numbers(out, &laid.owners);
                put_cells(out, &laid.repeaters);
                put_bytes(out, &laid.kinds);
                put_bytes(out, &laid.facings);
            }
        }
    }

    fn read_answer(input: &mut Input) -> Result<ListAnswer, String> {
        let refusal = input.refusal()?;
        let number = input.number()?;
        match refusal {
            NO_REFUSAL => Ok(ListAnswer::Nets(LaidNets {
                nets: (0..number)
                    .map(|_| input.branches())
                    .collect::<Result<_, _>>()?,
                owners: input.numbers()?,
                repeaters: input.cells()?,
                kinds: input.counted_bytes()?,
                facings: input.counted_bytes()?,
            })),
            Refusal {
                number: 1..=6,
                detail: 0,
            }
            | Refusal {
                number: 7..=9 | 13..=16,
                ..
            } => Ok(ListAnswer::Refused(NetRefusal {
                net: number as usize,
                refusal,
            })),
            _ => Err(format!("no answer of a list: {refusal:?}")),
        }
    }
}
