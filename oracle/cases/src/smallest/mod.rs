//! The smallest inputs of docs/DIFFERENCES.md and docs/OPEN-POINTS.md, by the number of cells (docs/SMALLEST.md): each
//! finding and each open point has an input that shows it, and a walk through all inputs of fewer cells that a few lists of
//! parts make up, or the reason why there are none. `oracle smallest` goes the walks; the tests hold each input to what it
//! shows.

mod findings;
mod readings;
pub mod signs;
pub mod space;

use crate::reading::Other;
use crate::room::kind;
use crate::samples::block;
use crate::search::Search;
use crate::sheet::Job;
use space::{Jobs, Searches, Walked};

/// A finding or an open point.
pub struct Point {
    pub name: &'static str,
    pub says: &'static str,
    pub input: Input,
    pub sign: Sign,
    pub fewer: Fewer,
}

pub enum Input {
    Search(Search),
    Job(Job),
}

/// What shows a point.
pub enum Sign {
    Search(fn(&Search) -> bool),
    Job(fn(&Job) -> bool),
    /// The other reading answers differently.
    Read(Other),
}

/// What is known of rooms of fewer cells.
pub enum Fewer {
    Searches(Vec<Searches>),
    Jobs(Vec<Jobs>),
    /// None can show it, and why.
    Reason(&'static str),
    /// No walk ends here: what is known.
    Open(&'static str),
}

/// How many inputs of so many cells were seen, and whether one of them shows the point.
pub struct Step {
    pub cells: usize,
    pub seen: u64,
    pub shown: Option<Input>,
}

pub fn points() -> Vec<Point> {
    let mut points = findings::points();
    points.extend(readings::points());
    points
}

/// A row of the text is a line of cells along z: the lowest of x 0 first, then those above it, then those of x 1, and so on.
/// `#` is Solid, `w` RedstoneWire.
fn draw(job: &mut Job, text: &str) {
    let places = (0..job.sides[0]).flat_map(|x| (0..job.sides[1]).map(move |y| (x, y)));
    for ((x, y), row) in places.zip(text.lines()) {
        for (z, cell) in (0..).zip(row.chars()) {
            let kind = match cell {
                '#' => kind::SOLID,
                'w' => kind::REDSTONE_WIRE,
                _ => continue,
            };
            job.blocks.push(block(0, [x, y, z], kind));
        }
    }
}

impl Input {
    pub fn cells(&self) -> usize {
        let sides = match self {
            Self::Search(search) => search.sides,
            Self::Job(job) => job.sides,
        };
        sides.iter().map(|side| usize::from(*side)).product()
    }
}

impl Point {
    /// The input shows what it is there for.
    pub fn is_shown(&self) -> bool {
        match (&self.sign, &self.input) {
            (Sign::Search(shows), Input::Search(search)) => shows(search),
            (Sign::Job(shows), Input::Job(job)) => shows(job),
            (Sign::Read(other), Input::Job(job)) => signs::matters(job, *other),
            _ => false,
        }
    }

    /// All inputs of so many cells, up to the first that shows the point; none where there is no walk.
    pub fn step(&self, cells: usize) -> Option<Step> {
        let walks: Vec<Walked<Input>> = match (&self.fewer, &self.sign) {
            (Fewer::Searches(spaces), Sign::Search(shows)) => {
                up_to_the_first(spaces, |space| space.walk(cells, *shows).map(Input::Search))
            }
            (Fewer::Jobs(spaces), _) => up_to_the_first(spaces, |space| {
                space.walk(cells, &|job| self.shows(job)).map(Input::Job)
            }),
            _ => return None,
        };
        Some(Step {
            cells,
            seen: walks.iter().map(|walked| walked.seen).sum(),
            shown: walks.into_iter().find_map(|walked| walked.first),
        })
    }

    fn shows(&self, job: &Job) -> bool {
        match self.sign {
            Sign::Search(_) => false,
            Sign::Job(shows) => shows(job),
            Sign::Read(other) => signs::matters(job, other),
        }
    }
}

/// Goes through one space after the other until a walk finds something.
fn up_to_the_first<S, T>(spaces: &[S], walk: impl Fn(&S) -> Walked<T>) -> Vec<Walked<T>> {
    let mut walks = Vec::new();
    for space in spaces {
        walks.push(walk(space));
        if walks.iter().any(|walked| walked.first.is_some()) {
            break;
        }
    }
    walks
}
