//! A link that keeps the rules of document 01, and those of document 02 for trailers and "over". Demand 3 is checked as it goes, from what
//! was called and answered.
use super::channel::Channel;
use super::claims::{self, Block};
use super::history::History;
use super::noise;
use super::pairs::Pairs;
use super::streams::Streams;
use super::words::{Style, Words};
use super::{limit, Kind};
use crate::library::compare::{Bench, Ran};
use crate::library::layout::ENCODER_BYTES;
use crate::program::call::{Call, Outcome};
use crate::random::Random;
use crate::recording::{Step, ROOM};

struct Link<'b, 'a> {
    bench: &'b mut Bench<'a>,
    random: Random,
    kind: Kind,
    words: Words,
    streams: Streams,
    blocks: Vec<Block>,
    management: Channel,
    acknowledgements: Channel,
    history: History,
    pairs: Pairs,
}

#[derive(Clone, Copy)]
enum Act {
    Insert,
    Delete,
    Write,
    Read,
    Offer,
    Over,
    End,
    Reset,
    Collect,
    Acknowledge,
    Ask,
    Noise,
}

/// How often each act comes in busy times, in which tables fill, and in quiet ones, in which everything arrives.
const WEIGHTS: [(Act, [u64; 2]); 12] = [
    (Act::Insert, [20, 1]),
    (Act::Delete, [8, 4]),
    (Act::Write, [22, 2]),
    (Act::Read, [10, 30]),
    (Act::Offer, [14, 30]),
    (Act::Over, [3, 12]),
    (Act::End, [4, 20]),
    (Act::Reset, [3, 2]),
    (Act::Collect, [4, 12]),
    (Act::Acknowledge, [3, 10]),
    (Act::Ask, [2, 2]),
    (Act::Noise, [25, 15]),
];

pub fn run(kind: Kind, style: Style, mut random: Random, calls: usize, bench: &mut Bench) -> Ran<()> {
    let pairs = Pairs::new(&random, style);
    let words = Words::new(&mut random, style);
    let at_decoder = if style == Style::Tiny && random.percent(70) { 4096 } else { limit(&mut random) };
    let at_encoder = if random.percent(80) { at_decoder } else { random.below(at_decoder + 1) };
    bench.call(Call::DecoderStart { limit: at_decoder })?;
    bench.call(Call::EncoderStart { limit: at_encoder })?;
    let streams = Streams::new(&mut random);
    let (management, acknowledgements) = (Channel::default(), Channel::default());
    let history = History::default();
    let mut link = Link { bench, random, kind, words, streams, blocks: Vec::new(), management, acknowledgements, history, pairs };
    while link.bench.calls < calls {
        let quiet = usize::from(link.random.percent(45));
        for _ in 0..link.random.between(10, 120) {
            link.act(quiet)?;
            link.pairs.now_and_then(link.bench)?;
        }
    }
    claims::ask_all(link.bench)?;
    if kind == Kind::Refused {
        let streams = link.streams.some_of_all(&mut link.random);
        claims::try_all(streams, link.bench)?;
    }
    Ok(())
}

impl Link<'_, '_> {
    fn act(&mut self, quiet: usize) -> Ran<()> {
        let happens = |act| match act {
            Act::Reset => self.kind == Kind::Resets,
            Act::Noise => self.kind == Kind::Refused,
            _ => true,
        };
        let weights = WEIGHTS.map(|(act, weights)| (act, if happens(act) { weights[quiet] } else { 0 }));
        match self.random.weighted(&weights) {
            Act::Insert => self.insert(),
            Act::Delete => self.delete(),
            Act::Write => self.write(),
            Act::Read => self.read(),
            Act::Offer => self.offer(),
            Act::Over => self.over(),
            Act::End => self.end(),
            Act::Reset => self.reset(),
            Act::Collect => self.collect(),
            Act::Acknowledge => self.acknowledge(),
            Act::Ask => claims::ask_one(&mut self.random, self.bench),
            Act::Noise => self.noise(),
        }
    }

    /// Room for an encoder's output, now and then too little: 12 changes nothing.
    fn room(&mut self) -> usize {
        if self.random.percent(4) {
            self.random.below(12) as usize
        } else {
            ROOM
        }
    }

    fn insert(&mut self) -> Ran<()> {
        let field = self.words.field(&mut self.random);
        let room = self.room();
        let outcome = self.bench.call(Call::EncoderInsert { name: field.name, value: field.value, room })?;
        self.managed(outcome)
    }

    fn delete(&mut self) -> Ran<()> {
        let Some(index) = self.history.to_delete(&mut self.random) else {
            return Ok(());
        };
        let room = self.room();
        let outcome = self.bench.call(Call::EncoderDelete { index, room })?;
        self.managed(outcome)
    }

    fn managed(&mut self, outcome: Outcome) -> Ran<()> {
        if outcome.done() {
            self.management.write(&outcome.output);
            self.history.managed(&outcome.output).or_else(|what| self.bench.broken(what))?;
        }
        Ok(())
    }

    fn write(&mut self) -> Ran<()> {
        let Some((stream, part)) = self.streams.next_to_write(&mut self.random) else {
            return Ok(());
        };
        let list = self.words.list(&mut self.random);
        // Two equal blocks of a stream are two.
        let times = if part == 0 && self.random.percent(12) { 2 } else { 1 };
        for _ in 0..times {
            let room = self.room();
            let outcome = self.bench.call(Call::EncoderBlock { stream, part, list: list.clone(), room })?;
            if outcome.done() {
                self.streams.wrote(stream, part);
                self.blocks.push(Block { stream, part, bytes: outcome.output, list: list.clone(), after: self.management.written });
            }
        }
        Ok(())
    }

    fn read(&mut self) -> Ran<()> {
        if self.management.next().is_none() && self.random.percent(90) {
            return Ok(());
        }
        let bytes = self.management.offer(&mut self.random);
        let given = bytes.len();
        let outcome = self.bench.call(Call::DecoderRead { bytes })?;
        let came = claims::came(&outcome, self.management.next(), given);
        if came.or_else(|what| self.bench.broken(what))? {
            self.management.taken();
            self.history.read();
        }
        Ok(())
    }

    fn acknowledge(&mut self) -> Ran<()> {
        if self.acknowledgements.next().is_none() && self.random.percent(90) {
            return Ok(());
        }
        let bytes = self.acknowledgements.offer(&mut self.random);
        let given = bytes.len();
        let outcome = self.bench.call(Call::EncoderAcknowledge { bytes })?;
        let came = claims::came(&outcome, self.acknowledgements.next(), given);
        if came.or_else(|what| self.bench.broken(what))? {
            self.acknowledgements.taken();
        }
        Ok(())
    }

    /// Offers a block that the rules let be offered.
    fn offer(&mut self) -> Ran<()> {
        let brings = |&place: &usize| self.streams.brings(self.blocks[place].stream, self.blocks[place].part);
        let places: Vec<usize> = (0..self.blocks.len()).filter(brings).collect();
        if places.is_empty() {
            return Ok(());
        }
        let place = *self.random.pick(&places);
        let block = &self.blocks[place];
        let (stream, part) = (block.stream, block.part);
        let room = block.list.len() + if self.random.percent(50) { 0 } else { self.random.below(64) as usize };
        let outcome = self.bench.call(Call::DecoderBlock { stream, part, bytes: block.bytes.clone(), room })?;
        let judged = claims::offered(&self.blocks[place], &outcome, &self.history, self.management.read);
        judged.or_else(|what| self.bench.broken(what))?;
        if outcome.done() {
            self.blocks.swap_remove(place);
            self.streams.decoded(stream, part);
        }
        Ok(())
    }

    fn over(&mut self) -> Ran<()> {
        let Some(stream) = self.streams.next_to_say_over(&mut self.random) else {
            return Ok(());
        };
        self.bench.call(Call::DecoderOver { stream })?;
        self.streams.said_over(stream);
        Ok(())
    }

    fn end(&mut self) -> Ran<()> {
        let Some(stream) = self.streams.next_to_end(&mut self.random) else {
            return Ok(());
        };
        self.bench.call(Call::DecoderEnded { stream })?;
        self.streams.ended(stream);
        Ok(())
    }

    /// None of the stream's blocks arrives from now on, those that the encoder still writes included.
    fn reset(&mut self) -> Ran<()> {
        let reset = self.streams.reset(&mut self.random);
        self.blocks.retain(|block| Some(block.stream) != reset);
        Ok(())
    }

    fn collect(&mut self) -> Ran<()> {
        let room = if self.random.percent(10) { self.random.below(3) as usize } else { ROOM };
        let outcome = self.bench.call(Call::DecoderCollect { room })?;
        if !outcome.output.is_empty() {
            self.acknowledgements.write(&outcome.output);
            self.history.freed(&outcome.output).or_else(|what| self.bench.broken(what))?;
        }
        Ok(())
    }

    /// A refused call in between, sometimes on memory that is too short.
    fn noise(&mut self) -> Ran<()> {
        let call = noise::call(&mut self.random, &self.bench.second);
        let end = call.end();
        let short = self.random.percent(5);
        if short {
            let length = self.random.below(ENCODER_BYTES as u64) as usize;
            self.bench.note(Step::Lend { end, length });
        }
        let outcome = self.bench.call(call)?;
        if short {
            self.bench.note(Step::Lend { end, length: ROOM });
        }
        if outcome.done() {
            return self.bench.broken("a call that must be refused is done".to_string());
        }
        Ok(())
    }
}
