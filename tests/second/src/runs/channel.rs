//! Bytes on the way from one end of a link to the other.
use std::collections::VecDeque;

use crate::random::Random;

#[derive(Default)]
pub struct Channel {
    /// How many bytes were ever written, and how many were read.
    pub written: usize,
    pub read: usize,
    unread: VecDeque<u8>,
    /// The length of each instruction that is not read yet.
    lengths: VecDeque<usize>,
}

impl Channel {
    pub fn write(&mut self, instruction: &[u8]) {
        self.written += instruction.len();
        self.unread.extend(instruction);
        self.lengths.push_back(instruction.len());
    }

    /// The length of the next instruction, where there is one.
    pub fn next(&self) -> Option<usize> {
        self.lengths.front().copied()
    }

    /// Some beginning of what is unread: all, one instruction, or any number of bytes.
    pub fn offer(&self, random: &mut Random) -> Vec<u8> {
        let length = match random.below(8) {
            0 => random.below(self.unread.len() as u64 + 1) as usize,
            1..=3 => self.next().unwrap_or(0),
            _ => self.unread.len().min(400),
        };
        self.unread.iter().take(length).copied().collect()
    }

    /// The next instruction was read.
    pub fn taken(&mut self) {
        let length = self.lengths.pop_front().expect("an instruction was written");
        self.unread.drain(..length);
        self.read += length;
    }
}
