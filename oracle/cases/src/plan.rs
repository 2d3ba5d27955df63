//! docs/LAYING-RULES.md, One call for repeaters: a net's ends, branches and limits as numbers, what is judged of them, and the repeaters, by the
//! plain planning of `repeaters`.

use crate::Refusal;
use crate::parts::{SINK, SOURCE};
use crate::repeaters::plan;
use crate::room::{MOST_CELLS, Place, Room, facing, moves, port};
use crate::samples::default_job;
use crate::sheet::{Job, MOST_SINKS, Port, Sink};
use crate::tree::realize;
use crate::version::is_limit;

/// How many work buffers are lent.
pub const WORK: usize = 4;

/// What is asked, and how long the lent marks and work buffers are. Nothing is promised about any of it: `judge` decides.
#[derive(Clone, Debug, Eq, PartialEq)]
pub struct Plan {
    pub sides: [u16; 3],
    pub run: u32,
    /// x, y, z, port kind, facing.
    pub source: Vec<u16>,
    /// The same and a tail limit, of each sink.
    pub sinks: Vec<u16>,
    /// Cells, one branch behind another.
    pub branches: Vec<u32>,
    /// One a branch.
    pub lengths: Vec<u32>,
    pub marks: u32,
    pub work: [u32; WORK],
}

#[derive(Clone, Debug, Eq, PartialEq)]
pub enum PlanAnswer {
    Refused(Refusal),
    /// Ascending.
    Repeaters(Vec<u16>),
}

impl PlanAnswer {
    pub fn number(&self) -> u8 {
        match self {
            Self::Refused(refusal) => refusal.number,
            Self::Repeaters(_) => 0,
        }
    }
}

/// A net that no number refuses.
#[derive(Clone, Debug, Eq, PartialEq)]
pub struct Planned {
    /// Without blocks: only its ends and limits count.
    pub job: Job,
    pub room: Room,
    pub branches: Vec<Vec<usize>>,
}

impl Plan {
    /// The net of a job with such branches, and memory that just suffices.
    pub fn of(job: &Job, room: &Room, branches: &[Vec<usize>]) -> Self {
        let cells = room.cells() as u32;
        let sink = |sink: &Sink| [&port_numbers(&sink.port)[..], &[sink.tail.into()]].concat();
        Self {
            sides: job.sides,
            run: job.run.into(),
            source: port_numbers(&job.source).to_vec(),
            sinks: job.sinks.iter().flat_map(sink).collect(),
            branches: branches.iter().flatten().map(|cell| *cell as u32).collect(),
            lengths: branches.iter().map(|branch| branch.len() as u32).collect(),
            marks: cells,
            work: [cells; WORK],
        }
    }

    pub fn plain_answer(&self) -> PlanAnswer {
        match self.judge() {
            Err(refusal) => PlanAnswer::Refused(refusal),
            Ok(Planned {
                job,
                room,
                branches,
            }) => {
                let repeaters = plan(&job, &room, &branches).into_iter();
                PlanAnswer::Repeaters(repeaters.map(|cell| cell as u16).collect())
            }
        }
    }

    /// 2; 3 for the run limit; 4 and 5 of the source; 4, 5 and 3 of each sink; 4 of each branch; 6; all of 8; all of 9. Of what is too many,
    /// or not all there, the part that is there is judged before 6.
    pub fn judge(&self) -> Result<Planned, Refusal> {
        let room = Room::new(self.sides, MOST_CELLS).ok_or(Refusal::bare(2))?;
        good(3, is_limit(self.run))?;
        if self.source.len() == SOURCE {
            judge_end(&room, &self.source)?;
        }
        for sink in self.sinks.chunks_exact(SINK).take(MOST_SINKS) {
            judge_end(&room, sink)?;
            good(3, is_limit(sink[SOURCE].into()))?;
        }
        let branches = self.branches_there();
        for branch in &branches {
            good(4, is_way(&room, branch))?;
        }
        good(6, self.is_formed() && self.is_lent(room.cells()))?;
        let job = self.job();
        realize(&job, &room)?;
        let branches = branches.iter().map(|branch| indices(branch)).collect();
        Ok(Planned {
            job,
            room,
            branches,
        })
    }

    /// The branches of the first sixteen lengths, each as far as there are cells.
    fn branches_there(&self) -> Vec<&[u32]> {
        let mut rest = self.branches.as_slice();
        let lengths = self.lengths.iter().take(MOST_SINKS);
        lengths
            .map(|length| {
                let (branch, behind) = rest.split_at(rest.len().min(*length as usize));
                rest = behind;
                branch
            })
            .collect()
    }

    fn is_formed(&self) -> bool {
        let total: u64 = self.lengths.iter().map(|length| u64::from(*length)).sum();
        self.source.len() == SOURCE
            && self.sinks.len() % SINK == 0
            && self.sinks.len() <= SINK * MOST_SINKS
            && self.lengths.len() <= MOST_SINKS
            && total <= self.branches.len() as u64
    }

    fn is_lent(&self, cells: usize) -> bool {
        self.marks as usize >= cells && self.work.iter().all(|length| *length as usize >= cells)
    }

    /// The job of ends and limits that are judged.
    fn job(&self) -> Job {
        let mut job = default_job(self.sides, &[]);
        job.run = self.run as u8;
        job.source = port_of(&self.source);
        let sinks = self.sinks.chunks_exact(SINK);
        job.sinks = sinks
            .map(|sink| Sink {
                port: port_of(sink),
                tail: sink[SOURCE] as u8,
            })
            .collect();
        job
    }
}

fn indices(branch: &[u32]) -> Vec<usize> {
    branch.iter().map(|cell| *cell as usize).collect()
}

/// Each cell lies in the room, and each step is one of the twelve moves.
fn is_way(room: &Room, branch: &[u32]) -> bool {
    let branch = indices(branch);
    let is_step = |pair: &[usize]| moves().any(|by| room.next(pair[0], by) == Some(pair[1]));
    branch.iter().all(|cell| *cell < room.cells()) && branch.windows(2).all(is_step)
}

fn judge_end(room: &Room, end: &[u16]) -> Result<(), Refusal> {
    good(
        4,
        room.cell(Place::from([end[0], end[1], end[2]])).is_some(),
    )?;
    let is_port = end[3] <= u16::from(port::LAST);
    good(5, is_port && end[4] <= u16::from(facing::LAST))
}

fn good(number: u8, holds: bool) -> Result<(), Refusal> {
    holds.then_some(()).ok_or(Refusal::bare(number))
}

fn port_of(end: &[u16]) -> Port {
    Port {
        at: [end[0], end[1], end[2]],
        kind: end[3] as u8,
        facing: end[4] as u8,
    }
}

fn port_numbers(port: &Port) -> [u16; SOURCE] {
    let [x, y, z] = port.at;
    [x, y, z, port.kind.into(), port.facing.into()]
}
