//! Demand 3 on what is read, offered and asked, held against calls and answers alone.
use std::collections::BTreeSet;

use super::history::History;
use crate::library::compare::{Bench, Ran};
use crate::program::blocks;
use crate::program::call::{Call, Outcome};
use crate::random::Random;

/// A block that was written and not decoded yet.
pub struct Block {
    pub stream: u64,
    pub part: u64,
    pub bytes: Vec<u8>,
    /// The fields put in.
    pub list: Vec<u8>,
    /// The management bytes that were written before it.
    pub after: usize,
}

/// Bytes that come as the rules say are taken where an instruction is whole, and answered 2 where it is cut; whether they were taken.
pub fn came(outcome: &Outcome, whole: Option<usize>, given: usize) -> Result<bool, String> {
    let right = match whole.filter(|&whole| whole <= given) {
        Some(whole) => outcome.done() && outcome.first == whole as u64,
        None => outcome.answer == 2,
    };
    if right {
        Ok(outcome.done())
    } else {
        Err(format!("an instruction that keeps the rules is answered {} {}", outcome.answer, outcome.first))
    }
}

/// An offered block is not refused as faulty; a decoded one gives the fields put in; it waits exactly when a slot that it names is empty,
/// and never once the management bytes before it are read.
pub fn offered(block: &Block, outcome: &Outcome, history: &History, read: usize) -> Result<(), String> {
    let Ok(parsed) = blocks::read(&block.bytes) else {
        return Err("a written block does not read back".to_string());
    };
    let empty = parsed.iter().filter_map(|one| one.refers_to()).find(|index| !history.holds(*index));
    let wrong = match (outcome.answer, empty) {
        (0, None) if outcome.output == block.list => return Ok(()),
        (0, None) => "a decoded block gives other fields than were put in",
        (0, Some(_)) => "a block is decoded although a slot that it names is empty",
        (1, None) => "a block is told to wait although no slot that it names is empty",
        (1, Some(index)) if index != outcome.first => "a waiting block is told another index than the first empty one",
        (1, Some(_)) if read >= block.after => "a block waits although all management bytes before it are read",
        (1, Some(_)) => return Ok(()),
        _ => "a block that keeps the rules is refused as faulty",
    };
    Err(wrong.to_string())
}

/// Asks about one entry under deletion.
pub fn ask_one(random: &mut Random, bench: &mut Bench) -> Ran<()> {
    let indexes = bench.deletions.indexes();
    if indexes.is_empty() {
        bench.call(Call::DecoderHold { index: random.between(62, 70) })?;
        return Ok(());
    }
    ask(*random.pick(&indexes), bench)
}

pub fn ask_all(bench: &mut Bench) -> Ran<()> {
    bench.deletions.indexes().into_iter().try_for_each(|index| ask(index, bench))
}

fn ask(index: u64, bench: &mut Bench) -> Ran<()> {
    let outcome = bench.call(Call::DecoderHold { index })?;
    let (count, lowest) = bench.deletions.holding(index);
    if (outcome.answer, outcome.first, outcome.second) == (0, count, lowest) {
        return Ok(());
    }
    bench.broken(format!("{count} parts, the lowest of stream {lowest}, hold {index} back by calls and answers"))
}

/// Offers empty blocks, which were not written: each is taken exactly when its part is not finished by calls and answers. The link's rules
/// are not kept from then on.
pub fn try_all(streams: BTreeSet<u64>, bench: &mut Bench) -> Ran<()> {
    for (stream, part) in streams.into_iter().flat_map(|stream| [(stream, 0), (stream, 0), (stream, 1), (stream, 0), (stream, 1)]) {
        let taken = bench.deletions.takes(stream, part);
        let outcome = bench.call(Call::DecoderBlock { stream, part, bytes: Vec::new(), room: 0 })?;
        if outcome.answer != if taken { 0 } else { 11 } {
            return bench.broken(format!("part {part} of stream {stream} takes blocks by calls and answers: {taken}"));
        }
    }
    Ok(())
}
