//! Both ends alone: calls with any bytes and arguments, near enough to right ones that tables fill and deletions end.
use super::pairs::Pairs;
use super::words::{Style, Words};
use super::{limit, wild};
use crate::library::compare::{Bench, Ran};
use crate::library::layout::{DECODER_BYTES, ENCODER_BYTES};
use crate::program::call::{Call, End};
use crate::program::tables::Parts;
use crate::program::wire::LARGEST;
use crate::random::Random;
use crate::recording::{Step, BYTES_MOST, ROOM};

pub fn run(style: Style, mut random: Random, calls: usize, bench: &mut Bench) -> Ran<()> {
    let mut pairs = Pairs::new(&random, style);
    let words = Words::new(&mut random, style);
    memories(&mut random, bench);
    let streams = *random.pick(&[4, 12, 70, 4200]);
    for _ in 0..random.below(4) {
        // Before a start there is no state.
        let call = call(&mut random, bench, &words, streams);
        bench.call(call)?;
        pairs.now_and_then(bench)?;
    }
    start(&mut random, bench)?;
    while bench.calls < calls {
        if random.percent(1) {
            on_short_memory(&mut random, bench, &words)?;
        }
        if random.percent(1) {
            collect_all(&mut random, bench)?;
        }
        let call = call(&mut random, bench, &words, streams);
        let call = roomed(&mut random, bench, call);
        bench.call(call)?;
        pairs.now_and_then(bench)?;
    }
    Ok(())
}

/// Memory of some length at each end, with anything in it.
pub fn memories(random: &mut Random, bench: &mut Bench) {
    for (end, least) in [(End::Decoder, DECODER_BYTES), (End::Encoder, ENCODER_BYTES)] {
        let length = match random.below(4) {
            0 => least,
            1 => least + random.below(100) as usize,
            _ => continue,
        };
        let seed = random.next();
        bench.note(Step::Memory { end, length, seed });
    }
}

pub fn start(random: &mut Random, bench: &mut Bench) -> Ran<()> {
    let (one, other) = (limit(random), limit(random));
    bench.call(Call::DecoderStart { limit: one })?;
    bench.call(Call::EncoderStart { limit: other })?;
    Ok(())
}

/// The most bytes of an acknowledgement.
const ACKNOWLEDGEMENT_MOST: u64 = 5;

/// Collects until nothing is freed, as a host does, now and then with room for few acknowledgements or for none.
pub fn collect_all(random: &mut Random, bench: &mut Bench) -> Ran<()> {
    loop {
        let room = if random.percent(25) { random.below(ACKNOWLEDGEMENT_MOST) } else { ACKNOWLEDGEMENT_MOST };
        let outcome = bench.call(Call::DecoderCollect { room: room as usize })?;
        if outcome.output.is_empty() && outcome.answer != 12 {
            return Ok(());
        }
    }
}

/// A call on a part of an end's memory.
fn on_short_memory(random: &mut Random, bench: &mut Bench, words: &Words) -> Ran<()> {
    let (end, least) = *random.pick(&[(End::Decoder, DECODER_BYTES), (End::Encoder, ENCODER_BYTES)]);
    let length = *random.pick(&[0, 1, 10, 63, 64, 1_088, 7_232, least - 1, least]);
    bench.note(Step::Lend { end, length });
    let call = match (end, random.percent(20)) {
        (End::Decoder, true) => Call::DecoderStart { limit: start_limit(random) },
        (End::Encoder, true) => Call::EncoderStart { limit: start_limit(random) },
        _ => call(random, bench, words, 4),
    };
    bench.call(call)?;
    bench.note(Step::Lend { end, length: ROOM });
    Ok(())
}

/// A stream and a part for a block, more often than not in turn.
fn stream_and_part(random: &mut Random, parts: Option<&Parts>, streams: u64) -> (u64, u64) {
    let mut pair = (0, 0);
    for _ in 0..4 {
        pair = (stream(random, streams), part(random));
        if parts.is_some_and(|parts| parts.in_turn(pair.0, pair.1).is_ok()) || random.percent(20) {
            break;
        }
    }
    pair
}

fn stream(random: &mut Random, streams: u64) -> u64 {
    match random.below(30) {
        0 => *random.pick(&[63, 64, 4095, 4096, 4097, 1 << 32, u64::MAX]),
        _ => random.below(streams),
    }
}

fn part(random: &mut Random) -> u64 {
    match random.below(60) {
        0 => *random.pick(&[2, 3, 255, 256, 1 << 32, u64::MAX]),
        n => u64::from(n % 3 == 0),
    }
}

fn argument(random: &mut Random, held: &[u64]) -> u64 {
    match random.below(20) {
        0 => *random.pick(&[0, 61, LARGEST, LARGEST + 1, 1 << 32, (1 << 32) + 62, u64::MAX]),
        _ => wild::index(random, held),
    }
}

/// Any call, now and then the last one again: a block that comes twice, or an "over" that does.
pub fn call(random: &mut Random, bench: &Bench, words: &Words, streams: u64) -> Call {
    let last = bench.steps.iter().rev().find(|step| !matches!(step, Step::Pair { .. }));
    if let (Some(Step::Call(call)), true) = (last, random.percent(3)) {
        return call.clone();
    }
    let [at_decoder, at_encoder] = wild::held(&bench.second);
    let made = |random: &mut Random, mut bytes: Vec<u8>| {
        if random.percent(12) {
            wild::mutate(random, &mut bytes);
            bytes.truncate(BYTES_MOST);
        }
        // Not in reports, of which recordings are made.
        if words.style() != Style::Reports && random.percent(5) {
            wild::cut(random, &mut bytes);
        }
        bytes
    };
    let room = ROOM;
    match random.below(1000) {
        0..=3 => Call::DecoderStart { limit: start_limit(random) },
        4..=7 => Call::EncoderStart { limit: start_limit(random) },
        8..=299 => {
            let bytes = wild::instruction(random, &at_decoder, words);
            Call::DecoderRead { bytes: made(random, bytes) }
        }
        300..=449 => {
            let bytes = wild::block(random, &at_decoder, words);
            let (stream, part) = stream_and_part(random, bench.second.decoder.as_ref().map(|end| &end.finished), streams);
            Call::DecoderBlock { stream, part, bytes: made(random, bytes), room }
        }
        450..=479 => Call::DecoderEnded { stream: stream(random, streams) },
        480..=499 => Call::DecoderOver { stream: stream(random, streams) },
        500..=559 => Call::DecoderHold { index: argument(random, &at_decoder) },
        560..=619 => Call::DecoderCollect { room },
        620..=719 => {
            let field = words.field(random);
            let name = if random.percent(2) { vec![b'n'; random.between(254, 257) as usize] } else { field.name };
            let value = if random.percent(2) { vec![b'v'; random.between(2046, 2049) as usize] } else { field.value };
            Call::EncoderInsert { name, value, room }
        }
        720..=789 => Call::EncoderDelete { index: argument(random, &at_encoder), room },
        790..=939 => {
            let list = wild::list(random, words);
            let (stream, part) = stream_and_part(random, bench.second.encoder.as_ref().map(|end| &end.closed), streams);
            Call::EncoderBlock { stream, part, list: made(random, list), room }
        }
        _ => {
            let bytes = wild::acknowledgement(random, &at_encoder);
            Call::EncoderAcknowledge { bytes: made(random, bytes) }
        }
    }
}

fn start_limit(random: &mut Random) -> u64 {
    match random.below(4) {
        0 => *random.pick(&[4097, 1 << 16, 1 << 32, u64::MAX]),
        _ => limit(random),
    }
}

/// The call with room around what it would write: just enough, one byte too little, or some other.
pub fn roomed(random: &mut Random, bench: &Bench, call: Call) -> Call {
    if call.room().is_none() || random.percent(60) {
        return call;
    }
    let needed = bench.second.clone().make(&call, true).output.len();
    let room = match random.below(5) {
        0 => needed.saturating_sub(1),
        1 => random.below(needed as u64 + 1) as usize,
        2 => needed + random.below(40) as usize,
        _ => needed,
    };
    call.with_room(room)
}
