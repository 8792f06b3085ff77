//! Made-up states, since no list of calls from a start reaches most of them.
use std::collections::{BTreeMap, BTreeSet};

use crate::library::compare::Bench;
use crate::library::layout;
use crate::program::call::End;
use crate::program::decoder::{Decoder, Delete};
use crate::program::encoder::{Encoder, Held};
use crate::program::instructions::{StreamList, STREAMS};
use crate::program::tables::{Entry, Parts};
use crate::program::wire::LARGEST;
use crate::random::Random;
use crate::recording::Step;

/// Lays made-up states over both memories, in damages of at most 512 bytes.
pub fn lay(random: &mut Random, bench: &mut Bench) {
    for end in [End::Decoder, End::Encoder] {
        let mut memory = bench.memory(end).to_vec();
        match end {
            End::Decoder => layout::lay_decoder(&mut memory, &some_decoder(random)),
            End::Encoder => layout::lay_encoder(&mut memory, &some_encoder(random)),
        }
        for at in (0..memory.len()).step_by(512) {
            let to = memory.len().min(at + 512);
            if memory[at..to] != bench.memory(end)[at..to] {
                bench.note(Step::Damage { end, at, bytes: memory[at..to].to_vec() });
            }
        }
    }
}

/// Entries at the given indexes, as many as the held size allows, or a few bytes more: then they form no state.
fn entries(random: &mut Random, indexes: BTreeSet<u64>) -> BTreeMap<u64, Entry> {
    let most = *random.pick(&[1, 2, 6, 300, 2048]);
    let mut left = *random.pick(&[4096, 4096, 4096, 4150]);
    let mut entries = BTreeMap::new();
    for index in indexes {
        let edge = most == 2048 && random.percent(20);
        let (name, value) = if edge { (255, 2047) } else { (random.below(most.min(256)) as usize, random.below(most) as usize) };
        let entry = Entry { name: random.bytes(name), value: random.bytes(value) };
        if entry.size() <= left {
            left -= entry.size();
            entries.insert(index, entry);
        }
    }
    entries
}

fn some_limit(random: &mut Random, held: u64) -> u64 {
    let any = random.below(4097);
    *random.pick(&[4096, 4096, held, any])
}

fn parts(random: &mut Random) -> Parts {
    let often = *random.pick(&[0, 50, 97, 100]);
    Parts([0, 1].map(|_| (0..STREAMS).map(|_| random.percent(often)).collect()))
}

fn stream_list(random: &mut Random) -> StreamList {
    let any = random.below(4097);
    let horizon = *random.pick(&[0, 0, 1, 5, 64, 4000, 4096, any]);
    let mut listed = Vec::new();
    let mut last = horizon;
    let step = *random.pick(&[1, 5, 300]);
    for _ in 0..*random.pick(&[0, 0, 1, 3, 16]) {
        last += random.between(1, step);
        if last < STREAMS {
            listed.push(last);
        }
    }
    StreamList { horizon, listed }
}

fn some_decoder(random: &mut Random) -> Decoder {
    // The highest index, one for all or one for each, so that acknowledgements have from one to five bytes.
    let highest = [70, 189, 300, LARGEST];
    let highest = if random.percent(30) { highest.to_vec() } else { vec![*random.pick(&highest)] };
    let any_index = |random: &mut Random| {
        let highest = *random.pick(&highest);
        random.between(62, highest)
    };
    let mut indexes: BTreeSet<u64> = (0..*random.pick(&[0, 1, 5, 40, 128])).map(|_| any_index(random)).collect();
    if random.percent(20) {
        indexes = (62..190).collect();
    }
    let entries = entries(random, indexes);
    let often = *random.pick(&[0, 30, 100]);
    let mut deletes: Vec<Delete> = Vec::new();
    for &index in entries.keys() {
        if random.percent(often) {
            let at = random.below(deletes.len() as u64 + 1) as usize;
            deletes.insert(at, Delete { index, lists: [stream_list(random), stream_list(random)] });
        }
    }
    let mut decoder = Decoder { limit: 0, entries, deletes, finished: parts(random) };
    decoder.limit = some_limit(random, decoder.held());
    decoder
}

fn some_encoder(random: &mut Random) -> Encoder {
    let highest = *random.pick(&[66, 100, 189]);
    let mut indexes: BTreeSet<u64> = (0..*random.pick(&[0, 1, 5, 40, 128])).map(|_| random.between(62, highest)).collect();
    if random.percent(20) {
        indexes = (62..190).collect();
    }
    let texts = entries(random, indexes);
    let often = *random.pick(&[0, 30, 100]);
    let mut entries = BTreeMap::new();
    for (index, entry) in texts {
        // The highest referring stream, in some entries none.
        let references = [0, 1].map(|_| BTreeSet::from_iter(random.below(6000).checked_sub(1).filter(|&stream| stream < STREAMS)));
        entries.insert(index, Held { entry, deleting: random.percent(often), references });
    }
    let mut encoder = Encoder { limit: 0, entries, closed: parts(random) };
    encoder.limit = some_limit(random, encoder.held());
    encoder
}
