//! Several nets over one room, routed one after another and laid into it.

use std::fmt;

use crate::answer::{Refusal, Tree};
use crate::ffi::dustroute_nets;
use crate::job::{Room, Sheet};
use crate::lent::{NUMBERS_A_PLACE, detail, marked, places_that_suffice};
use crate::mode::Mode;

/// How many values a list of nets comes to.
pub const NETS_VALUES: usize = 3;

/// So many lengths a net, one for each sink that a sheet can have.
pub const NET_LENGTHS: usize = Sheet::MAX_SINKS;

/// The answer of a list: every net, and the room that they are laid into.
#[derive(Clone, Debug, Eq, PartialEq)]
pub struct Nets {
    /// In list order. Each is what a single job gets that has what the others hold and keep clear in its lists.
    pub nets: Vec<Tree>,
    /// For each cell the net that occupies it, by its place in the list, from 0.
    pub owners: Vec<Option<usize>>,
    /// The laid room, a kind and a facing for each cell, by their codes: [`crate::write_function`] takes them, if the blocks of the sheets have
    /// facings that their kinds can have in the game.
    pub kinds: Vec<u8>,
    pub facings: Vec<u8>,
}

/// The first net that is refused, by its place in the list, from 0, and why. It ends the list: the nets before it are not told.
#[derive(Clone, Copy, Debug, Eq, PartialEq)]
pub struct NetRefusal {
    pub net: usize,
    pub refusal: Refusal,
}

impl fmt::Display for NetRefusal {
    fn fmt(&self, out: &mut fmt::Formatter) -> fmt::Result {
        write!(out, "net {}: {}", self.net, self.refusal)
    }
}

impl std::error::Error for NetRefusal {}

/// What a list is lent: `branches`, `lengths`, `owners`, `repeaters`, `kinds`, `facings` and `values` are its output, the others work memory.
#[derive(Clone, Debug, Eq, PartialEq)]
pub struct NetsMemory {
    pub branches: Vec<u32>,
    pub lengths: Vec<u32>,
    pub owners: Vec<u32>,
    pub repeaters: Vec<u8>,
    pub kinds: Vec<u8>,
    pub facings: Vec<u8>,
    pub occupied: Vec<u8>,
    pub planned_work: Vec<u8>,
    pub before_work: Vec<u8>,
    pub room_work: Vec<u8>,
    pub blocked: Vec<u8>,
    pub classes: Vec<u8>,
    pub joinable: Vec<u8>,
    pub known: Vec<u32>,
    pub previous: Vec<u32>,
    pub path: Vec<u32>,
    pub best: Vec<u32>,
    pub queue: Vec<u64>,
    pub values: Vec<u64>,
}

/// How much a list is lent.
#[derive(Clone, Copy, Debug, Eq, PartialEq)]
pub struct NetsLengths {
    /// Of each buffer that has something for each cell.
    pub cells: usize,
    pub nets: usize,
    /// Of the queue.
    pub places: usize,
    /// Of all nets' branches together.
    pub branch_cells: usize,
}

impl NetsLengths {
    /// Lengths that suffice, so that neither 6 nor 13 nor 15 comes. A list that is refused before its buffers are judged needs none.
    pub fn of_list(list: &[u8]) -> Self {
        let sheets = sheets(list);
        let cells = sheets.first().and_then(Sheet::room).and_then(Room::cells).unwrap_or(0);
        let places = |sheet: &Sheet| places_that_suffice(cells, sheet.config().unwrap_or_default());
        let sinks: usize = sheets.iter().map(|sheet| sheet.sink_count().unwrap_or(0)).sum();
        Self {
            cells,
            nets: sheets.len(),
            places: sheets.iter().map(places).max().unwrap_or(0),
            branch_cells: sinks * (cells + 1),
        }
    }
}

/// The sheets of a list: each ends where its own length says, or where the list ends.
fn sheets(list: &[u8]) -> Vec<Sheet> {
    let mut found = Vec::new();
    let mut rest = list;
    while !rest.is_empty() {
        let said = Sheet::said_length(rest).unwrap_or(rest.len());
        let (sheet, behind) = rest.split_at(said.min(rest.len()));
        found.push(Sheet::from_bytes(sheet));
        rest = behind;
    }
    found
}

impl NetsMemory {
    /// Memory of such lengths.
    pub fn new(lengths: NetsLengths) -> Self {
        let NetsLengths {
            cells,
            nets,
            places,
            branch_cells,
        } = lengths;
        let (bytes, numbers) = (|| vec![0; cells], || vec![0; cells]);
        Self {
            branches: vec![0; branch_cells],
            lengths: vec![0; NET_LENGTHS * nets],
            owners: numbers(),
            repeaters: bytes(),
            kinds: bytes(),
            facings: bytes(),
            occupied: bytes(),
            planned_work: bytes(),
            before_work: bytes(),
            room_work: bytes(),
            blocked: bytes(),
            classes: bytes(),
            joinable: bytes(),
            known: numbers(),
            previous: numbers(),
            path: numbers(),
            best: numbers(),
            queue: vec![0; NUMBERS_A_PLACE * places],
            values: vec![0; NETS_VALUES],
        }
    }

    /// Memory that suffices for the list of these bytes.
    pub fn for_list(list: &[u8]) -> Self {
        Self::new(NetsLengths::of_list(list))
    }

    /// The nets of a list, its sheets' bytes one behind the other. A refusal by 1 to 6 leaves the memory as it was but for the first three values.
    pub fn route_nets(&mut self, mode: Mode, list: &[u8]) -> Result<Nets, NetRefusal> {
        match self.call(mode.number(), list) {
            0 => Ok(self.answer(list)),
            refused => Err(NetRefusal {
                // too few values tell nothing; that is judged with net 0
                net: self.values.get(..NETS_VALUES).map_or(0, |values| values[1] as usize),
                refusal: Refusal::of(refused, detail(refused, &self.values)),
            }),
        }
    }

    /// What a list with an answer left here.
    fn answer(&self, list: &[u8]) -> Nets {
        let room = sheets(list).first().and_then(Sheet::room).and_then(Room::cells);
        let cells = room.expect("a room that is not refused");
        let owners = &self.owners[..cells];
        let mut rest = self.branches.as_slice();
        let nets = (0..self.values[2] as usize).map(|net| Tree {
            branches: cut(&mut rest, &self.lengths[NET_LENGTHS * net..][..NET_LENGTHS]),
            occupied: of_net(net, owners, |_| true),
            repeaters: of_net(net, owners, |cell| self.repeaters[cell] != 0),
        });
        Nets {
            nets: nets.collect(),
            owners: owners.iter().map(|owner| (*owner as usize).checked_sub(1)).collect(),
            kinds: self.kinds[..cells].to_vec(),
            facings: self.facings[..cells].to_vec(),
        }
    }

    /// The bare call, in the mode that a number stands for, over any bytes: the number comes back, 0 for nets, and the memory is as the router
    /// leaves it.
    pub fn call(&mut self, strict: u32, list: &[u8]) -> u32 {
        // SAFETY: each pointer and length is that of a slice that lives through the call, and no two of them overlap. The router has
        // no requirement on what it is handed, and reads and writes within the slices alone.
        unsafe {
            dustroute_nets(
                strict,
                list.as_ptr(),
                list.len(),
                self.branches.as_mut_ptr(),
                self.branches.len(),
                self.lengths.as_mut_ptr(),
                self.lengths.len(),
                self.owners.as_mut_ptr(),
                self.owners.len(),
                self.repeaters.as_mut_ptr(),
                self.repeaters.len(),
                self.kinds.as_mut_ptr(),
                self.kinds.len(),
                self.facings.as_mut_ptr(),
                self.facings.len(),
                self.occupied.as_mut_ptr(),
                self.occupied.len(),
                self.planned_work.as_mut_ptr(),
                self.planned_work.len(),
                self.before_work.as_mut_ptr(),
                self.before_work.len(),
                self.room_work.as_mut_ptr(),
                self.room_work.len(),
                self.blocked.as_mut_ptr(),
                self.blocked.len(),
                self.classes.as_mut_ptr(),
                self.classes.len(),
                self.joinable.as_mut_ptr(),
                self.joinable.len(),
                self.known.as_mut_ptr(),
                self.known.len(),
                self.previous.as_mut_ptr(),
                self.previous.len(),
                self.path.as_mut_ptr(),
                self.path.len(),
                self.best.as_mut_ptr(),
                self.best.len(),
                self.queue.as_mut_ptr(),
                self.queue.len(),
                self.values.as_mut_ptr(),
                self.values.len(),
            )
        }
    }
}

/// The branches of a net, from the front of what is left. Each has a cell, so a length of 0 is that of no branch.
fn cut(rest: &mut &[u32], lengths: &[u32]) -> Vec<Vec<u32>> {
    let lengths = lengths.iter().take_while(|length| **length != 0);
    lengths
        .map(|length| {
            let (branch, behind) = rest.split_at(*length as usize);
            *rest = behind;
            branch.to_vec()
        })
        .collect()
}

/// The cells of a net of which this holds, ascending.
fn of_net(net: usize, owners: &[u32], holds: impl Fn(usize) -> bool) -> Vec<u32> {
    let marks: Vec<u8> = owners
        .iter()
        .enumerate()
        .map(|(cell, owner)| u8::from(*owner as usize == net + 1 && holds(cell)))
        .collect();
    marked(&marks)
}
