//! The streams of a link: in which order they are used, and what the host knows of those that are open.
use std::collections::{BTreeMap, BTreeSet};

use crate::program::instructions::STREAMS;
use crate::random::Random;

/// A stream that was not told as ended.
#[derive(Default)]
struct Stream {
    /// How many blocks of each part were written, and decoded.
    written: [usize; 2],
    decoded: [usize; 2],
    reset: bool,
    /// Its non-trailer part was told as over, not after a reset: by the rules no further block of it is ever written.
    over: bool,
}

impl Stream {
    /// Whether a further non-trailer block may be written: no trailer has closed the part.
    fn takes_more(&self) -> bool {
        self.written[1] == 0 && !self.over
    }

    /// Whether every non-trailer block that was written was decoded.
    fn heard(&self) -> bool {
        self.written[0] == self.decoded[0]
    }
}

/// As many streams are asked about at a run's end.
const SOME: usize = 24;

pub struct Streams {
    /// Those not used yet, the next one last.
    plan: Vec<u64>,
    open: BTreeMap<u64, Stream>,
    ended: Vec<u64>,
}

impl Streams {
    pub fn new(random: &mut Random) -> Streams {
        Streams { plan: plan(random), open: BTreeMap::new(), ended: Vec::new() }
    }

    /// Where to write a block: on an open stream its trailer or a further non-trailer block, or on a new one, now and then a trailer alone.
    pub fn next_to_write(&mut self, random: &mut Random) -> Option<(u64, u64)> {
        let open = match random.below(20) {
            0..=4 => self.some(random, |stream| stream.written[1] == 0).map(|stream| (stream, 1)),
            5..=10 => self.some(random, Stream::takes_more).map(|stream| (stream, 0)),
            _ => None,
        };
        let part = u64::from(random.percent(5));
        open.or_else(|| self.plan.last().map(|&stream| (stream, part)))
    }

    pub fn wrote(&mut self, stream: u64, part: u64) {
        self.opened(stream).written[part as usize] += 1;
    }

    /// The stream, which is open from now on.
    fn opened(&mut self, stream: u64) -> &mut Stream {
        self.plan.pop_if(|next| *next == stream);
        self.open.entry(stream).or_default()
    }

    /// Whether a block may be offered: its stream brings something, and before a trailer all non-trailer blocks were decoded. No further
    /// one is written, since the trailer was.
    pub fn brings(&self, stream: u64, part: u64) -> bool {
        self.open.get(&stream).is_some_and(|stream| !stream.reset && (part == 0 || stream.heard()))
    }

    pub fn decoded(&mut self, stream: u64, part: u64) {
        self.opened(stream).decoded[part as usize] += 1;
    }

    /// A stream whose non-trailer part to tell as over: reset, or every block of it decoded, and told before or not; sometimes one that has
    /// ended, or one that was never used.
    pub fn next_to_say_over(&self, random: &mut Random) -> Option<u64> {
        match random.below(40) {
            0 if !self.ended.is_empty() => Some(*random.pick(&self.ended)),
            1 => self.plan.last().copied(),
            _ => self.some(random, |stream| stream.reset || stream.heard()),
        }
    }

    pub fn said_over(&mut self, number: u64) {
        if !self.ended.contains(&number) {
            let stream = self.opened(number);
            stream.over |= !stream.reset;
        }
    }

    /// A stream to tell as ended: reset, or every block decoded; sometimes one ended before, or one that was never used.
    pub fn next_to_end(&mut self, random: &mut Random) -> Option<u64> {
        match random.below(40) {
            0 if !self.ended.is_empty() => Some(*random.pick(&self.ended)),
            1 => self.plan.pop(),
            _ => self.some(random, |stream| stream.reset || stream.written == stream.decoded),
        }
    }

    /// The stream was told as ended; no block is written on it again.
    pub fn ended(&mut self, stream: u64) {
        self.open.remove(&stream);
        self.ended.push(stream);
    }

    /// Resets a stream.
    pub fn reset(&mut self, random: &mut Random) -> Option<u64> {
        let number = self.some(random, |stream| !stream.reset)?;
        self.opened(number).reset = true;
        Some(number)
    }

    /// Some streams that were used, and one that was not.
    pub fn some_of_all(&self, random: &mut Random) -> BTreeSet<u64> {
        let used: Vec<u64> = self.open.keys().chain(&self.ended).copied().collect();
        let some = (0..SOME).filter(|_| !used.is_empty()).map(|_| *random.pick(&used));
        some.chain(self.plan.last().copied()).collect()
    }

    fn some(&self, random: &mut Random, test: impl Fn(&Stream) -> bool) -> Option<u64> {
        let numbers: Vec<u64> = self.open.iter().filter(|(_, stream)| test(stream)).map(|(&number, _)| number).collect();
        (!numbers.is_empty()).then(|| *random.pick(&numbers))
    }
}

/// All streams in the order of their use, the first one last: ascending, from somewhere in the middle, or the edges first, and
/// neighbours out of order.
fn plan(random: &mut Random) -> Vec<u64> {
    let mut order: Vec<u64> = (0..STREAMS).collect();
    match random.below(5) {
        0 => order.rotate_left(random.below(STREAMS) as usize),
        1 => {
            let edges = [0, 63, 64, 65, 127, 128, 4031, 4032, 4094, 4095];
            order.retain(|stream| !edges.contains(stream));
            order.splice(0..0, edges);
        }
        _ => (),
    }
    let window = *random.pick(&[1, 2, 8, 32]);
    for near in order.chunks_mut(window) {
        for at in (1..near.len()).rev() {
            near.swap(at, random.below(at as u64 + 1) as usize);
        }
    }
    order.reverse();
    order
}
