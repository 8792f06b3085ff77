//! What the two tables have in common: entries, their sizes, the parts of streams, and what a call says.
use super::instructions::STREAMS;
use super::wire::{refuse_if, Answer};

/// The highest limit. An entry has size 32 at least, so a table has 128 entries at most.
pub const LIMIT_MOST: u64 = 4096;

/// What a call answered "done" says: its two told numbers and the bytes that it writes.
#[derive(Clone, Debug, Default, PartialEq, Eq)]
pub struct Done {
    pub first: u64,
    pub second: u64,
    pub output: Vec<u8>,
}

impl Done {
    pub fn telling(first: u64, second: u64) -> Done {
        Done { first, second, output: Vec::new() }
    }

    /// Bytes to write, and how many they are; 12 where the lent room is too small.
    pub fn writing(output: Vec<u8>, room: usize) -> Answer<Done> {
        refuse_if(output.len() > room, 12)?;
        Ok(Done { first: output.len() as u64, second: 0, output })
    }
}

#[derive(Clone, Debug, PartialEq, Eq)]
pub struct Entry {
    pub name: Vec<u8>,
    pub value: Vec<u8>,
}

impl Entry {
    /// RFC 7541, 4.1.
    pub fn size(&self) -> u64 {
        (self.name.len() + self.value.len() + 32) as u64
    }
}

/// The parts that take no more blocks: a bit for each stream, for non-trailer parts and for trailer parts.
#[derive(Clone, Debug, PartialEq, Eq)]
pub struct Parts(pub [Vec<bool>; 2]);

impl Parts {
    pub fn none() -> Parts {
        Parts([vec![false; STREAMS as usize], vec![false; STREAMS as usize]])
    }

    pub fn has(&self, part: usize, stream: u64) -> bool {
        self.0[part][stream as usize]
    }

    pub fn add(&mut self, part: usize, stream: u64) {
        self.0[part][stream as usize] = true;
    }

    /// A block of a part was done: a trailer closes both parts of its stream, and a non-trailer block nothing, since others may follow.
    pub fn done(&mut self, part: usize, stream: u64) {
        if part == 1 {
            self.add(0, stream);
            self.add(1, stream);
        }
    }

    /// The part that a block may come in: its own not closed. A trailer may come while the non-trailer part is open.
    pub fn in_turn(&self, stream: u64, part: u64) -> Answer<usize> {
        refuse_if(stream >= STREAMS || part > 1, 11)?;
        let part = part as usize;
        refuse_if(self.has(part, stream), 11)?;
        Ok(part)
    }
}

/// 7 where an entry of this size would pass the limit.
pub fn room_for(size: u64, held: u64, limit: u64) -> Answer<()> {
    refuse_if(held + size > limit, 7)
}
