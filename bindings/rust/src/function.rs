//! A function file: the text of `setblock` commands that lays a room in the game, written and read.

use crate::answer::Refusal;
use crate::ffi::{dustroute_read_function, dustroute_write_function};
use crate::job::{Code, Room, bytes_of};

/// How many values writing and reading come to.
pub const FUNCTION_VALUES: usize = 2;

/// No line of a function file is longer: so many bytes for each cell that isn't Air hold the text.
pub const LINE_BYTES: usize = 77;

/// A room as a text lays it: a kind and a facing for each cell, by their codes, in number order.
#[derive(Clone, Debug, Eq, PartialEq)]
pub struct LaidRoom {
    pub kinds: Vec<u8>,
    pub facings: Vec<u8>,
    /// How many lines the text has: so many cells are not Air.
    pub lines: usize,
}

/// What writing is lent: both are its output.
#[derive(Clone, Debug, Eq, PartialEq)]
pub struct WriteMemory {
    pub text: Vec<u8>,
    pub values: Vec<u64>,
}

impl WriteMemory {
    /// Memory for a text of so many bytes.
    pub fn new(bytes: usize) -> Self {
        Self {
            text: vec![0; bytes],
            values: vec![0; FUNCTION_VALUES],
        }
    }

    /// The text of a room. A refusal by 2, 5 or 6 leaves the memory as it was, `values` included; 18 leaves it zero.
    pub fn write<K: Code, F: Code>(&mut self, room: Room, kinds: &[K], facings: &[F]) -> Result<Vec<u8>, Refusal> {
        match self.call(room, bytes_of(kinds), bytes_of(facings)) {
            0 => Ok(self.text[..self.values[1] as usize].to_vec()),
            refused => Err(Refusal::of(refused, 0)),
        }
    }

    /// The bare call: the number comes back, 0 for a text, and the memory is as the library leaves it.
    pub fn call(&mut self, room: Room, kinds: &[u8], facings: &[u8]) -> u32 {
        // SAFETY: each pointer and length is that of a slice that lives through the call, and no two of them overlap. The library has
        // no requirement on what it is handed, and reads and writes within the slices alone.
        unsafe {
            dustroute_write_function(
                room.wide.into(),
                room.high.into(),
                room.deep.into(),
                kinds.as_ptr(),
                kinds.len(),
                facings.as_ptr(),
                facings.len(),
                self.text.as_mut_ptr(),
                self.text.len(),
                self.values.as_mut_ptr(),
                self.values.len(),
            )
        }
    }
}

/// What reading is lent: all of it is its output.
#[derive(Clone, Debug, Eq, PartialEq)]
pub struct ReadMemory {
    pub kinds: Vec<u8>,
    pub facings: Vec<u8>,
    pub values: Vec<u64>,
}

impl ReadMemory {
    /// Memory for a room of so many cells.
    pub fn new(cells: usize) -> Self {
        Self {
            kinds: vec![0; cells],
            facings: vec![0; cells],
            values: vec![0; FUNCTION_VALUES],
        }
    }

    /// The room that a text lays. A refusal by 2 or 6 leaves the memory as it was, `values` included; after 19 the room is zero.
    pub fn read(&mut self, room: Room, text: &[u8]) -> Result<LaidRoom, Refusal> {
        match self.call(room, text) {
            0 => {
                let cells = room.cells().expect("a room that is not refused");
                Ok(LaidRoom {
                    kinds: self.kinds[..cells].to_vec(),
                    facings: self.facings[..cells].to_vec(),
                    lines: self.values[1] as usize,
                })
            }
            refused => Err(Refusal::of(refused, if refused <= 6 { 0 } else { self.values[0] })),
        }
    }

    /// The bare call: the number comes back, 0 for a room, and the memory is as the library leaves it.
    pub fn call(&mut self, room: Room, text: &[u8]) -> u32 {
        // SAFETY: each pointer and length is that of a slice that lives through the call, and no two of them overlap. The library has
        // no requirement on what it is handed, and reads and writes within the slices alone.
        unsafe {
            dustroute_read_function(
                room.wide.into(),
                room.high.into(),
                room.deep.into(),
                text.as_ptr(),
                text.len(),
                self.kinds.as_mut_ptr(),
                self.kinds.len(),
                self.facings.as_mut_ptr(),
                self.facings.len(),
                self.values.as_mut_ptr(),
                self.values.len(),
            )
        }
    }
}
