//! Document 02's law that the order of reports does not count, and the same for "over". Two calls of the decoder are made on a copy of its
//! memory, and in the other order on another copy. Where they are in the law, each must say and write the same either way, and both copies
//! must end alike, whatever the memory is. Pairs outside the law are tried too: some of them must differ, or this would see nothing.
use super::calls::{Library, Said};
use crate::program::call::{Call, End};
use crate::program::instructions::STREAMS;
use crate::recording::call_line;

/// The marks of so many streams stand in one word.
const WORD: u64 = 64;

/// What the two calls of a pair are.
#[derive(Clone, Copy, Debug, PartialEq, Eq)]
pub enum Pair {
    /// Blocks on different streams: of two words of marks, of one word, or both above 4,095.
    Blocks,
    BlocksInAWord,
    BlocksAbove,
    /// A block, and an "ended" or "over" for another stream.
    BlockEnded,
    BlockOver,
    /// Two of "ended" and "over", on any streams.
    TwoEnded,
    TwoOver,
    EndedOver,
    /// One "ended" or "over", and the same again.
    Again,
    /// Outside the law: a block and another call for its stream.
    OneStream,
    /// Outside the law: a collect, and an "ended" or "over".
    Collect,
}

pub const PAIRS: [(Pair, &str); 11] = [
    (Pair::Blocks, "two blocks"),
    (Pair::BlocksInAWord, "two blocks of a word"),
    (Pair::BlocksAbove, "two blocks above 4,095"),
    (Pair::BlockEnded, "a block and \"ended\""),
    (Pair::BlockOver, "a block and \"over\""),
    (Pair::TwoEnded, "two \"ended\""),
    (Pair::TwoOver, "two \"over\""),
    (Pair::EndedOver, "\"ended\" and \"over\""),
    (Pair::Again, "one of them again"),
    (Pair::OneStream, "a block and another call for its stream"),
    (Pair::Collect, "a collect and \"ended\" or \"over\""),
];

fn stream_of(call: &Call) -> Option<u64> {
    match call {
        Call::DecoderBlock { stream, .. } | Call::DecoderEnded { stream } | Call::DecoderOver { stream } => Some(*stream),
        _ => None,
    }
}

/// Whether the call, where it is done, finishes a part.
fn finishes(call: &Call) -> bool {
    matches!(call, Call::DecoderBlock { part: 1, .. } | Call::DecoderEnded { .. } | Call::DecoderOver { .. })
}

impl Pair {
    pub fn of(one: &Call, other: &Call) -> Pair {
        use Call::{DecoderBlock as Block, DecoderEnded as Ended, DecoderOver as Over};
        let (Some(stream), Some(another)) = (stream_of(one), stream_of(other)) else { return Pair::Collect };
        let block = matches!(one, Block { .. }) || matches!(other, Block { .. });
        match (one, other) {
            _ if block && stream == another => Pair::OneStream,
            (Block { .. }, Block { .. }) if stream >= STREAMS && another >= STREAMS => Pair::BlocksAbove,
            (Block { .. }, Block { .. }) if stream / WORD == another / WORD => Pair::BlocksInAWord,
            (Block { .. }, Block { .. }) => Pair::Blocks,
            _ if one == other => Pair::Again,
            (Ended { .. }, Ended { .. }) => Pair::TwoEnded,
            (Over { .. }, Over { .. }) => Pair::TwoOver,
            _ if !block => Pair::EndedOver,
            (Ended { .. }, _) | (_, Ended { .. }) => Pair::BlockEnded,
            _ => Pair::BlockOver,
        }
    }

    /// Whether the order must not count.
    fn in_the_law(self) -> bool {
        !matches!(self, Pair::OneStream | Pair::Collect)
    }
}

/// What a pair showed.
#[derive(Clone, Copy, Debug, PartialEq, Eq)]
pub struct Tried {
    pub pair: Pair,
    /// Made in this order.
    pub answers: [u8; 2],
    /// Both are done and finish a part, which may be finished already.
    pub both: bool,
    pub differs: bool,
}

/// What a call said and wrote.
#[derive(PartialEq, Eq)]
struct Made {
    said: Said,
    output: Vec<u8>,
}

fn make(twin: &mut Library, call: &Call, lend: usize) -> Result<Made, String> {
    let said = twin.make(call, lend);
    let told = if said.answer == 0 && call.room().is_some() { said.first as usize } else { 0 };
    let (output, rest) = twin.output.bytes().split_at_checked(told).ok_or("more bytes of output are told than were lent")?;
    let fill = twin.fill();
    if rest.iter().any(|&byte| byte != fill) || !twin.guarded(call) {
        return Err(format!("{} writes where it may not", call_line(call)));
    }
    Ok(Made { said, output: output.to_vec() })
}

/// So many bytes of an output are shown.
const SHOWN: usize = 8;

/// A call says and writes the same when it is the first and when it is the second of the two.
fn alike(call: &Call, first: &Made, second: &Made) -> Result<(), String> {
    if first == second {
        return Ok(());
    }
    let words = |made: &Made| {
        let front = &made.output[..made.output.len().min(SHOWN)];
        format!("{} {} {} and writes {front:02x?}", made.said.answer, made.said.first, made.said.second)
    };
    Err(format!("{} says {} when it comes first, {} when it comes second", call_line(call), words(first), words(second)))
}

/// Memory is the same either way, or before a call is said again and after it.
fn same_memory(one: &[u8], other: &[u8]) -> Result<(), String> {
    if one == other {
        return Ok(());
    }
    let at = one.iter().zip(other).position(|(one, other)| one != other);
    Err(format!("the memory differs at byte {}", at.unwrap_or(0)))
}

/// Tries two calls in either order on copies of this memory, of which so many bytes are lent.
pub fn check(twin: &mut Library, memory: &[u8], lend: usize, one: &Call, other: &Call) -> Result<Tried, String> {
    let pair = Pair::of(one, other);
    twin.give(End::Decoder, memory);
    let one_first = make(twin, one, lend)?;
    let between = (pair == Pair::Again).then(|| twin.memory(End::Decoder).bytes().to_vec());
    let other_second = make(twin, other, lend)?;
    let one_way = twin.memory(End::Decoder).bytes().to_vec();
    twin.give(End::Decoder, memory);
    let other_first = make(twin, other, lend)?;
    let one_second = make(twin, one, lend)?;
    let same = alike(one, &one_first, &one_second)
        .and_then(|()| alike(other, &other_first, &other_second))
        .and_then(|()| same_memory(&one_way, twin.memory(End::Decoder).bytes()))
        .and_then(|()| between.map_or(Ok(()), |between| same_memory(&between, &one_way)));
    let answers = [one_first.said.answer, other_second.said.answer];
    let both = answers == [0, 0] && finishes(one) && finishes(other);
    match same {
        Err(what) if pair.in_the_law() => Err(format!("the order of two calls counts: {}, {}: {what}", call_line(one), call_line(other))),
        same => Ok(Tried { pair, answers, both, differs: same.is_err() }),
    }
}

/// How often pairs of each kind were tried.
#[derive(Clone, Debug, Default)]
pub struct Tries {
    counts: [Count; PAIRS.len()],
    /// Pairs in the law of which a call was told to wait, was refused in another way, or found no state.
    waiting: u64,
    refused: u64,
    no_state: u64,
}

#[derive(Clone, Copy, Debug, Default)]
struct Count {
    tried: u64,
    both: u64,
    differ: u64,
}

/// At least one call in so many must be followed by a pair of each kind, and by one in the law of which a call waits, is refused, or finds no
/// state; and one in so many by a pair of each kind in the law of which both finish a part, and of each outside it that differs.
const TRIED_IN: u64 = 2_000;
const TELLING_IN: u64 = 10_000;

impl Tries {
    pub fn count(&mut self, tried: Tried) {
        let count = &mut self.counts[tried.pair as usize];
        count.tried += 1;
        count.both += u64::from(tried.both);
        count.differ += u64::from(tried.differs);
        if tried.pair.in_the_law() {
            self.waiting += u64::from(tried.answers.contains(&1));
            self.refused += u64::from(tried.answers.iter().any(|answer| !matches!(answer, 0 | 1 | 17)));
            self.no_state += u64::from(tried.answers.contains(&17));
        }
    }

    pub fn add(&mut self, other: &Tries) {
        for (count, more) in self.counts.iter_mut().zip(&other.counts) {
            *count = Count { tried: count.tried + more.tried, both: count.both + more.both, differ: count.differ + more.differ };
        }
        self.waiting += other.waiting;
        self.refused += other.refused;
        self.no_state += other.no_state;
    }

    pub fn lines(&self) -> Vec<String> {
        let Tries { waiting, refused, no_state, .. } = self;
        let tried: u64 = self.counts.iter().map(|count| count.tried).sum();
        let mut lines = vec![format!(
            "pairs tried in either order: {tried}; of those in the law with a call that waits: {waiting}, is refused: {refused}, finds no state: {no_state}"
        )];
        lines.extend(PAIRS.iter().zip(&self.counts).map(|((pair, name), Count { tried, both, differ })| {
            let telling = if pair.in_the_law() { format!("both finish a part: {both}") } else { format!("differ: {differ}") };
            format!("  {name}: {tried}, {telling}")
        }));
        lines
    }

    pub fn missed(&self, calls: u64) -> Vec<String> {
        let few = |count: u64, once_in: u64| count * once_in < calls;
        let mut missed = Vec::new();
        for ((pair, name), count) in PAIRS.iter().zip(&self.counts) {
            let telling = match pair {
                Pair::OneStream | Pair::Collect => Some(count.differ),
                // These are refused.
                Pair::BlocksAbove => None,
                _ => Some(count.both),
            };
            if few(count.tried, TRIED_IN) || telling.is_some_and(|count| few(count, TELLING_IN)) {
                missed.push(format!("too few pairs: {name}"));
            }
        }
        let rare = [(self.waiting, "waits"), (self.refused, "is refused"), (self.no_state, "finds no state")];
        for (_, what) in rare.into_iter().filter(|(count, _)| few(*count, TRIED_IN)) {
            missed.push(format!("too few pairs of which a call {what}"));
        }
        missed
    }
}
