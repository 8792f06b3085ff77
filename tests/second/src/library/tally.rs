//! How often each call got each answer, how full the tables were, which blocks messages had, how near blocks came to their bound, in which
//! order entries were freed, and which pairs of calls were tried: a run that reaches little would prove little.
use std::collections::BTreeSet;

use super::deletions::{Collected, Freeing};
use super::order::{Tried, Tries};
use super::room::Reached;
use crate::program::call::{Call, Outcome, Second};
use crate::program::instructions::STREAMS;

/// One more than the highest number of the table of answers.
const ANSWERS: usize = 20;
/// As many entries as a table can hold.
const ENTRIES_MOST: usize = 128;

/// Every call with the answers that the papers let it give. 4 and 15 are given by none: packed strings are read, and where 128 entries are
/// held the next one passes the limit, which is 7.
const REACHABLE: [(&str, &[u8]); 12] = [
    ("decoder start", &[0, 7, 12]),
    ("decoder read", &[0, 2, 3, 5, 6, 7, 8, 9, 13, 14, 17, 18, 19]),
    ("decoder block", &[0, 1, 2, 3, 5, 11, 12, 13, 17, 18, 19]),
    ("decoder over", &[0, 11, 17]),
    ("decoder ended", &[0, 11, 17]),
    ("decoder collect", &[0, 12, 17]),
    ("decoder hold", &[0, 5, 8, 10, 17]),
    ("encoder start", &[0, 7, 12]),
    ("encoder insert", &[0, 7, 12, 13, 17]),
    ("encoder delete", &[0, 5, 8, 9, 12, 17]),
    ("encoder block", &[0, 11, 12, 13, 16, 17]),
    ("encoder acknowledge", &[0, 2, 3, 5, 10, 17, 19]),
];

#[derive(Clone, Debug, Default)]
pub struct Tally {
    counts: [[u64; ANSWERS]; REACHABLE.len()],
    /// The most entries that an end held: decoder, encoder.
    most: [usize; 2],
    /// Inserts that were refused with 7 where an end held 128 entries.
    full: [u64; 2],
    /// The blocks at the bound of document 02, those of them with its numbers, and those with the most bytes of a block.
    bound: [u64; 3],
    messages: [Messages; 2],
    freeing: Freeing,
    tries: Tries,
}

/// The blocks of messages at an end.
#[derive(Clone, Debug, Default)]
struct Messages {
    /// The streams on which a non-trailer block was done since the last start.
    begun: BTreeSet<u64>,
    /// Non-trailer blocks that were done where their stream had one before, and trailers where it had none.
    further: u64,
    alone: u64,
    /// Blocks of a stream and a part that exist, refused with 11: their part takes no more.
    late: [u64; 2],
}

impl Messages {
    fn count(&mut self, stream: u64, part: u64, answer: u8) {
        match (answer, part) {
            (0, 0) => self.further += u64::from(!self.begun.insert(stream)),
            (0, _) => self.alone += u64::from(!self.begun.contains(&stream)),
            (11, 0 | 1) if stream < STREAMS => self.late[part as usize] += 1,
            _ => (),
        }
    }

    fn add(&mut self, other: &Messages) {
        self.further += other.further;
        self.alone += other.alone;
        self.late.iter_mut().zip(other.late).for_each(|(count, more)| *count += more);
    }

    fn line(&self, end: &str) -> String {
        let Messages { further, alone, late, .. } = self;
        format!(
            "{end}: {further} further non-trailer blocks, {alone} trailers alone; refused on a part that takes no more: {} and {}",
            late[0], late[1]
        )
    }

    /// Whether there was one of each.
    fn all(&self) -> bool {
        self.further > 0 && self.alone > 0 && !self.late.contains(&0)
    }
}

fn place(call: &Call) -> usize {
    use Call::*;
    match call {
        DecoderStart { .. } => 0,
        DecoderRead { .. } => 1,
        DecoderBlock { .. } => 2,
        DecoderOver { .. } => 3,
        DecoderEnded { .. } => 4,
        DecoderCollect { .. } => 5,
        DecoderHold { .. } => 6,
        EncoderStart { .. } => 7,
        EncoderInsert { .. } => 8,
        EncoderDelete { .. } => 9,
        EncoderBlock { .. } => 10,
        EncoderAcknowledge { .. } => 11,
    }
}

impl Tally {
    pub fn count(&mut self, call: &Call, outcome: &Outcome, second: &Second) {
        self.counts[place(call)][usize::from(outcome.answer)] += 1;
        let held = [second.decoder.as_ref().map_or(0, |end| end.entries.len()), second.encoder.as_ref().map_or(0, |end| end.entries.len())];
        self.most = [self.most[0].max(held[0]), self.most[1].max(held[1])];
        let inserts = [matches!(call, Call::DecoderRead { .. }), matches!(call, Call::EncoderInsert { .. })];
        for (end, full) in self.full.iter_mut().enumerate() {
            *full += u64::from(inserts[end] && held[end] == ENTRIES_MOST && outcome.answer == 7);
        }
        let messages = &mut self.messages[call.end() as usize];
        match call {
            Call::DecoderBlock { stream, part, .. } | Call::EncoderBlock { stream, part, .. } => {
                messages.count(*stream, *part, outcome.answer)
            }
            Call::DecoderStart { .. } | Call::EncoderStart { .. } if outcome.done() => messages.begun.clear(),
            _ => (),
        }
    }

    pub fn collected(&mut self, collected: Collected) {
        self.freeing.count(collected);
    }

    pub fn tried(&mut self, tried: Tried) {
        self.tries.count(tried);
    }

    /// A block was written, or would have been with more room.
    pub fn reached(&mut self, reached: Reached) {
        let [bound, closed, most] = &mut self.bound;
        *bound += u64::from(matches!(reached, Reached::Bound | Reached::Closed));
        *closed += u64::from(reached == Reached::Closed);
        *most += u64::from(reached == Reached::Most);
    }

    pub fn add(&mut self, other: &Tally) {
        for (row, more) in self.counts.iter_mut().zip(&other.counts) {
            row.iter_mut().zip(more).for_each(|(count, more)| *count += more);
        }
        self.most = [self.most[0].max(other.most[0]), self.most[1].max(other.most[1])];
        self.full.iter_mut().zip(other.full).for_each(|(count, more)| *count += more);
        self.bound.iter_mut().zip(other.bound).for_each(|(count, more)| *count += more);
        self.messages.iter_mut().zip(&other.messages).for_each(|(messages, more)| messages.add(more));
        self.freeing.add(&other.freeing);
        self.tries.add(&other.tries);
    }

    pub fn calls(&self) -> u64 {
        self.counts.iter().flatten().sum()
    }

    /// The lines of a table: each call, and each answer with how often it was given.
    pub fn lines(&self) -> Vec<String> {
        let given = |row: &[u64; ANSWERS]| -> String {
            let pairs = row.iter().enumerate().filter(|(_, &count)| count > 0);
            pairs.map(|(answer, count)| format!("  {answer}: {count}")).collect()
        };
        let mut lines: Vec<String> =
            REACHABLE.iter().zip(&self.counts).map(|((name, _), row)| format!("{name:20}{}", given(row))).collect();
        lines.push(format!("most entries held: {} at the decoder, {} at the encoder", self.most[0], self.most[1]));
        lines.push(format!("inserts refused with 7 beside 128 entries: {} at the decoder, {} at the encoder", self.full[0], self.full[1]));
        lines.extend(["decoder", "encoder"].into_iter().zip(&self.messages).map(|(end, messages)| messages.line(end)));
        lines.push(self.freeing.line());
        lines.extend(self.tries.lines());
        let [bound, closed, most] = self.bound;
        lines
            .push(format!("blocks at their bound: {bound}, of them 259 bytes for 257 of list: {closed}; at 16,384 bytes below it: {most}"));
        lines
    }

    /// Answers that a call never gave although it can, or gave although it cannot, tables that never filled, messages that never came, a
    /// bound never reached, entries that were freed in too plain an order, and pairs that were too rare.
    pub fn missed(&self) -> Vec<String> {
        let mut missed = Vec::new();
        for ((name, answers), row) in REACHABLE.iter().zip(&self.counts) {
            let never = answers.iter().filter(|&&answer| row[usize::from(answer)] == 0);
            missed.extend(never.map(|answer| format!("{name} never answered {answer}")));
            let given = (0u8..).zip(row).filter(|(answer, &count)| count > 0 && !answers.contains(answer));
            missed.extend(given.map(|(answer, _)| format!("{name} answered {answer}")));
        }
        if self.most != [ENTRIES_MOST; 2] || self.full.contains(&0) {
            missed.push("128 entries were not held at both ends, or no insert was refused beside them".to_string());
        }
        if !self.messages.iter().all(Messages::all) {
            missed.push("no further non-trailer block, no trailer alone, or no block on a part that takes no more".to_string());
        }
        if self.bound[0] == 0 || self.bound[1] == 0 {
            missed.push("no block was as long as its bound, or none of 259 bytes for a list of 257".to_string());
        }
        missed.extend(self.freeing.missed(self.calls()));
        missed.extend(self.tries.missed(self.calls()));
        missed
    }
}
