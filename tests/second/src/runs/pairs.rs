//! Pairs of calls for document 02's law that the order of reports does not count: made for the table that the decoder has at the moment, and
//! tried on copies of its memory, so that the run goes on as if they had not been.
use super::wild;
use super::words::{Style, Words};
use crate::library::compare::{Bench, Ran};
use crate::program::call::Call;
use crate::program::instructions::STREAMS;
use crate::random::Random;
use crate::recording::{Step, BYTES_MOST};

/// One call in so many is followed by a pair.
const EVERY: u64 = 20;
/// A stream as the last calls had one is looked for among so many steps.
const RECENT: usize = 12;
/// Streams that are none.
const ABOVE: [u64; 6] = [STREAMS, STREAMS + 1, STREAMS + 63, 1 << 32, (1 << 32) + 5, u64::MAX];

pub struct Pairs {
    random: Random,
    words: Words,
}

impl Pairs {
    /// With random numbers of their own, so that a run makes the same calls with them as without.
    pub fn new(random: &Random, style: Style) -> Pairs {
        let mut random = Random::new(!random.clone().next());
        let words = Words::new(&mut random, style);
        Pairs { random, words }
    }

    pub fn now_and_then(&mut self, bench: &mut Bench) -> Ran<()> {
        if self.random.below(EVERY) > 0 {
            return Ok(());
        }
        let (one, other) = self.pair(bench);
        bench.pair(one, other)
    }

    fn pair(&mut self, bench: &Bench) -> (Call, Call) {
        let stream = self.stream(bench);
        let another = self.another(stream);
        match self.random.below(20) {
            0..=7 => (self.block(bench, stream), self.short_block(bench, another)),
            8..=11 => (self.block(bench, stream), self.closing(another)),
            12 | 13 => (self.closing(stream), self.closing(another)),
            14 | 15 => (self.closing(stream), self.closing(stream)),
            16 => (self.block(bench, stream), self.short_block(bench, stream)),
            17 => (self.block(bench, stream), self.closing(stream)),
            _ => (Call::DecoderCollect { room: 5 }, self.freeing(bench, stream)),
        }
    }

    /// A stream as one of the last calls had it, any, or none.
    fn stream(&mut self, bench: &Bench) -> u64 {
        let of_step = |step: &Step| match step {
            Step::Call(Call::DecoderBlock { stream, .. } | Call::DecoderEnded { stream } | Call::DecoderOver { stream }) => Some(*stream),
            _ => None,
        };
        let recent = bench.steps.iter().rev().take(RECENT).find_map(of_step);
        match self.random.below(10) {
            0 => *self.random.pick(&ABOVE),
            1..=4 => recent.unwrap_or(0),
            _ => self.random.below(STREAMS),
        }
    }

    /// Another stream than this one: of the same word of marks, any, or none.
    fn another(&mut self, stream: u64) -> u64 {
        let near = stream ^ self.random.between(1, 63);
        let other = match self.random.below(10) {
            0..=5 => near,
            6..=8 => self.random.below(STREAMS),
            _ => *self.random.pick(&ABOVE),
        };
        if other == stream {
            near
        } else {
            other
        }
    }

    fn block(&mut self, bench: &Bench, stream: u64) -> Call {
        self.block_of(bench, stream, BYTES_MOST)
    }

    /// A block that can stand in one line of a recording with any other.
    fn short_block(&mut self, bench: &Bench, stream: u64) -> Call {
        self.block_of(bench, stream, BYTES_MOST / 2)
    }

    fn block_of(&mut self, bench: &Bench, stream: u64, bytes_most: usize) -> Call {
        let random = &mut self.random;
        let [held, _] = wild::held(&bench.second);
        let mut bytes = if random.percent(30) { Vec::new() } else { wild::block(random, &held, &self.words) };
        if random.percent(10) {
            wild::mutate(random, &mut bytes);
        }
        bytes.truncate(bytes_most);
        let part = *random.pick(&[0, 0, 0, 0, 1, 1, 1, 1, 1, 2]);
        let room = if random.percent(25) { random.below(60) as usize } else { 3_000 };
        Call::DecoderBlock { stream, part, bytes, room }
    }

    fn closing(&mut self, stream: u64) -> Call {
        if self.random.percent(50) {
            Call::DecoderEnded { stream }
        } else {
            Call::DecoderOver { stream }
        }
    }

    /// An "ended" or "over" for the lowest stream that holds back some deletion, if one does, after which its entry may be ready.
    fn freeing(&mut self, bench: &Bench, stream: u64) -> Call {
        let indexes = bench.deletions.indexes();
        let lowest = (!indexes.is_empty()).then(|| bench.deletions.holding(*self.random.pick(&indexes)).1);
        self.closing(lowest.filter(|&lowest| lowest < STREAMS).unwrap_or(stream))
    }
}
