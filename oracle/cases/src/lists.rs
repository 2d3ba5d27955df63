//! Several nets over one room, one after another: the list, what is judged of it, and its plain routing. A net is routed as a single job is,
//! with what it sees of the others added to its lists.

use std::collections::BTreeSet;

use crate::Refusal;
use crate::conflict::{Stair, stairs};
use crate::room::{MOST_CELLS, Room, moves};
use crate::sheet::{HEAD, Job};
use crate::tree::{Ends, Limits, Mode, Net, overlap, realize, route_in_mode};

/// So many lengths a net: one for each sink that a sheet can have.
pub const LENGTHS: usize = 16;

/// A list as it is handed over: whole sheets one behind the other, and how long what is lent is. Nothing is promised about its bytes.
#[derive(Clone, Debug, Eq, PartialEq)]
pub struct List {
    pub mode: Mode,
    pub bytes: Vec<u8>,
    /// Places in the lent queue.
    pub queue: u32,
    /// Cells in the lent branch buffer, for all nets.
    pub branch: u32,
    /// Numbers in the lent buffer of lengths.
    pub lengths: u32,
    /// The length of each other lent buffer.
    pub lent: u32,
}

/// A refusal, and the net that is refused, from 0.
#[derive(Clone, Copy, Debug, Eq, PartialEq)]
pub struct NetRefusal {
    pub net: usize,
    pub refusal: Refusal,
}

/// A judged list: every job is one that numbers 1 to 9 don't refuse, and all of them have one room and its blocks.
#[derive(Clone, Debug, Eq, PartialEq)]
pub struct Judged {
    pub room: Room,
    pub jobs: Vec<Job>,
    pub ends: Vec<Ends>,
}

/// The jobs with their nets in list order, before they are laid into the room.
#[derive(Clone, Debug, Eq, PartialEq)]
pub struct Routed {
    pub room: Room,
    pub list: Vec<(Job, Net)>,
    /// For each cell 0, or the number of the net that occupies it, from 1.
    pub owners: Vec<u32>,
}

impl List {
    /// A list with enough lent for any of its answers.
    pub fn ample(mode: Mode, jobs: &[Job]) -> Self {
        let sides = jobs.first().map_or([0; 3], |job| job.sides);
        let cells: u32 = sides.iter().map(|side| u32::from(*side)).product();
        let lengths = (LENGTHS * jobs.len()) as u32;
        Self {
            mode,
            bytes: jobs.iter().flat_map(Job::bytes).collect(),
            queue: 12 * cells,
            branch: lengths * (cells + 1),
            lengths,
            lent: cells,
        }
    }

    /// The nets, or the first refusal: 1 to 9 of all nets in list order, then 13 to 15 net by net, then 16.
    pub fn plain_nets(&self) -> Result<Routed, NetRefusal> {
        let judged = self.judge()?;
        let nets = judged.route(self.limits(), self.mode)?;
        let owners = judged.owners(&nets)?;
        Ok(Routed {
            room: judged.room,
            list: judged.jobs.into_iter().zip(nets).collect(),
            owners,
        })
    }

    pub fn limits(&self) -> Limits {
        Limits {
            queue: self.queue as usize,
            branch: self.branch as usize,
        }
    }

    /// All of 1 to 9 of net 0, then of net 1, and so on.
    pub fn judge(&self) -> Result<Judged, NetRefusal> {
        let mut judged: Option<Judged> = None;
        for (net, bytes) in sheets(&self.bytes).into_iter().enumerate() {
            let first = judged.as_ref().and_then(|judged| judged.jobs.first());
            let (job, room, ends) = self
                .judge_net(net, bytes, first)
                .map_err(|refusal| NetRefusal { net, refusal })?;
            let judged = judged.get_or_insert_with(|| Judged {
                room,
                jobs: Vec::new(),
                ends: Vec::new(),
            });
            judged.jobs.push(job);
            judged.ends.push(ends);
        }
        Ok(judged.expect("a list has a sheet"))
    }

    fn judge_net(
        &self,
        net: usize,
        bytes: &[u8],
        first: Option<&Job>,
    ) -> Result<(Job, Room, Ends), Refusal> {
        let job = Job::read(bytes)?;
        if first.is_some_and(|first| first.sides != job.sides || first.blocks != job.blocks) {
            return Err(Refusal::bare(1));
        }
        let room = job.judge(MOST_CELLS)?;
        let is_short = (self.lent as usize) < room.cells() || self.queue == 0;
        if is_short || (self.lengths as usize) < LENGTHS * (net + 1) {
            return Err(Refusal::bare(6));
        }
        if let Some(cell) = overlap(&job, &room) {
            return Err(Refusal::new(7, cell as u32));
        }
        let ends = realize(&job, &room)?;
        Ok((job, room, ends))
    }
}

/// The sheets of a list: each ends where its own length says, or where the list ends. Without a byte there is one, which is empty.
pub fn sheets(list: &[u8]) -> Vec<&[u8]> {
    let mut found = Vec::new();
    let mut rest = list;
    loop {
        let (sheet, behind) = rest.split_at(said_length(rest).min(rest.len()));
        found.push(sheet);
        rest = behind;
        if rest.is_empty() {
            return found;
        }
    }
}

/// What the head of a sheet says of the length of all of it; of one that is cut off within its head, the rest.
fn said_length(rest: &[u8]) -> usize {
    let length = rest.get(1..HEAD).and_then(|bytes| bytes.try_into().ok());
    length.map_or(rest.len(), |bytes| {
        HEAD + u32::from_be_bytes(bytes) as usize
    })
}

impl Judged {
    /// The nets one after another; each has what is left of the branch buffer. The first that is refused ends the list.
    pub fn route(&self, limits: Limits, mode: Mode) -> Result<Vec<Net>, NetRefusal> {
        let mut nets: Vec<Net> = Vec::new();
        let mut left = limits.branch;
        for net in 0..self.jobs.len() {
            let limits = Limits {
                branch: left,
                ..limits
            };
            let routed = route_in_mode(&self.seen_by(net, &nets), &self.room, limits, mode)
                .map_err(|refusal| NetRefusal { net, refusal })?;
            left -= routed.branch_cells();
            nets.push(routed);
        }
        Ok(nets)
    }

    /// The job of a net with all that it sees of the others: the cells of the nets before it as conductors, their stairs' clearances, and as
    /// reserved the protected cells of every other job, before it or behind it.
    pub fn seen_by(&self, net: usize, before: &[Net]) -> Job {
        let mut job = self.jobs[net].clone();
        for routed in before {
            job.conductors.extend(self.at_each(&routed.occupied));
            job.clearances.extend(self.at_each(&self.headroom(routed)));
        }
        for (other, ends) in self.ends.iter().enumerate() {
            if other != net {
                job.reserved.extend(self.at_each(&self.protected(ends)));
            }
        }
        job
    }

    /// A net's own cells and the keepouts of all these, as far as they lie in the room.
    fn protected(&self, ends: &Ends) -> BTreeSet<usize> {
        let own = ends.own();
        let kept = own
            .iter()
            .flat_map(|cell| moves().filter_map(|by| self.room.next(*cell, by)))
            .collect();
        &own | &kept
    }

    fn headroom(&self, net: &Net) -> BTreeSet<usize> {
        let stairs = net
            .branches
            .iter()
            .flat_map(|branch| stairs(&self.room, branch));
        stairs.map(|Stair { clearance, .. }| clearance).collect()
    }

    fn at_each(&self, cells: &BTreeSet<usize>) -> Vec<[u16; 3]> {
        let at = |cell: &usize| {
            let place = self.room.place(*cell);
            [place.x, place.y, place.z].map(|axis| axis as u16)
        };
        cells.iter().map(at).collect()
    }

    /// Who occupies each cell, or 16: the first net with a cell that a lower one occupies, and its least such cell.
    pub fn owners(&self, nets: &[Net]) -> Result<Vec<u32>, NetRefusal> {
        let mut owners = vec![0; self.room.cells()];
        for (net, routed) in nets.iter().enumerate() {
            if let Some(&cell) = routed.occupied.iter().find(|cell| owners[**cell] != 0) {
                let refusal = Refusal::new(16, cell as u32);
                return Err(NetRefusal { net, refusal });
            }
            for cell in &routed.occupied {
                owners[*cell] = net as u32 + 1;
            }
        }
        Ok(owners)
    }
}
