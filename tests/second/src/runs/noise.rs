//! Calls that must be refused whatever the state is, or in the state that is given.
use crate::program::call::{Call, Second};
use crate::program::instructions::{self, Instruction, Name, StreamList, STREAMS};
use crate::program::tables::Parts;
use crate::program::wire::LARGEST;
use crate::random::Random;
use crate::recording::ROOM;

/// A stream that is none.
fn no_stream(random: &mut Random) -> u64 {
    *random.pick(&[STREAMS, STREAMS + 1, 1 << 16, 1 << 32, u64::MAX])
}

/// An index that a caller may not give.
fn no_index(random: &mut Random) -> u64 {
    *random.pick(&[0, 1, 61, LARGEST + 1, 1 << 32, u64::MAX])
}

/// A limit that is too high.
fn no_limit(random: &mut Random) -> u64 {
    *random.pick(&[4097, 65_536 + 10, 1 << 32, u64::MAX])
}

pub fn call(random: &mut Random, second: &Second) -> Call {
    if random.percent(50) {
        at_decoder(random, second)
    } else {
        at_encoder(random, second)
    }
}

/// A stream and a part that takes no more blocks, or a stream that is none.
fn late(random: &mut Random, closed: Option<&Parts>) -> (u64, u64) {
    let part = random.below(2);
    let streams: Vec<u64> = (0..STREAMS).filter(|&stream| closed.is_some_and(|closed| closed.has(part as usize, stream))).collect();
    let stream = if streams.is_empty() { no_stream(random) } else { *random.pick(&streams) };
    (stream, part)
}

fn at_decoder(random: &mut Random, second: &Second) -> Call {
    let stream = random.below(STREAMS);
    let part = random.below(2);
    let block = |stream, part, bytes: Vec<u8>| Call::DecoderBlock { stream, part, bytes, room: ROOM };
    match random.below(12) {
        0 => Call::DecoderStart { limit: no_limit(random) },
        1 => Call::DecoderRead {
            bytes: random
                .pick(&[
                    &[][..],
                    &[0x40],
                    &[0xbe],
                    &[0x3e, 0x05],
                    &[0xbd, 0, 0, 0],
                    &[0xbe, 0, 0x81],
                    &[0xbe, 0, 0x81, 0x18, 0],
                    &[0xbe, 0, 0, 0x81, 0xff],
                    &[0xff, 0x80, 0, 0, 0, 0],
                    &[0xbe, 0xff, 0x80, 0, 0],
                    &[0xbe, 0, 0x7f, 0x81, 0x81, 0],
                    &[0xbe, 0, 0, 0xff, 0xff, 0],
                    &[0x3f, 0x80, 0, 0, 0, 0, 0],
                    &[0x3e, 0xff, 0x82, 0x9e, 0],
                    &[0x3e, 0, 0xff, 0x80, 0],
                    &[0x3e, 0, 0, 0, 1, 0xff, 0x80, 0],
                ])
                .to_vec(),
        },
        2 => block(no_stream(random), part, vec![0x82]),
        3 => block(stream, *random.pick(&[2, 3, 256, u64::MAX]), vec![0x82]),
        4 => block(
            stream,
            part,
            random
                .pick(&[
                    &[0x80][..],
                    &[0x01],
                    &[0x00, 0x81],
                    &[0x00, 0x01],
                    &[0xff, 0xff, 0xff, 0xff, 0xff],
                    &[0x01, 0x82, 0x1f, 0xff],
                    &[0x01, 0x84, 0xff, 0xff, 0xff, 0xff],
                    &[0x82, 0xff, 0x80, 0],
                    &[0x3f, 0x80, 0x80, 0, 0],
                    &[0x01, 0x7f, 0x80, 0x80, 0x80, 0],
                ])
                .to_vec(),
        ),
        5 => block(stream, part, vec![0x82]).with_room(random.below(13) as usize),
        6 if random.percent(10) => block(stream, part, vec![0x82; 16_385]),
        6 => Call::DecoderEnded { stream: no_stream(random) },
        10 => Call::DecoderOver { stream: no_stream(random) },
        11 => {
            let (stream, part) = late(random, second.decoder.as_ref().map(|decoder| &decoder.finished));
            block(stream, part, vec![0x82])
        }
        7 => Call::DecoderHold { index: no_index(random) },
        8 => Call::DecoderRead { bytes: no_insert(random, second) },
        _ => Call::DecoderRead { bytes: no_delete(random, second) },
    }
}

/// An insert at a held index, or one that takes its name from a vacant index.
fn no_insert(random: &mut Random, second: &Second) -> Vec<u8> {
    let held: Vec<u64> = second.decoder.iter().flat_map(|decoder| decoder.entries.keys().copied()).collect();
    let insert = if held.is_empty() || random.percent(50) {
        Instruction::Insert { index: 1000, name: Name::Index(1001), value: Vec::new() }
    } else {
        Instruction::Insert { index: *random.pick(&held), name: Name::Text(Vec::new()), value: Vec::new() }
    };
    instructions::written(&insert)
}

/// A delete of a vacant index, or of one under deletion.
fn no_delete(random: &mut Random, second: &Second) -> Vec<u8> {
    let gone: Vec<u64> = second.decoder.iter().flat_map(|decoder| decoder.deletes.iter().map(|delete| delete.index)).collect();
    let index = if gone.is_empty() || random.percent(50) { 1000 } else { *random.pick(&gone) };
    instructions::written(&Instruction::Delete { index, lists: [StreamList::default(), StreamList::default()] })
}

fn at_encoder(random: &mut Random, second: &Second) -> Call {
    let stream = random.below(STREAMS);
    let part = random.below(2);
    let block = |stream, part, list: Vec<u8>| Call::EncoderBlock { stream, part, list, room: ROOM };
    let gone: Vec<u64> = second
        .encoder
        .iter()
        .flat_map(|encoder| encoder.entries.iter().filter(|(_, held)| held.deleting).map(|(&index, _)| index))
        .collect();
    match random.below(11) {
        0 => Call::EncoderStart { limit: no_limit(random) },
        1 => Call::EncoderInsert { name: vec![b'n'; random.between(0, 256) as usize], value: vec![b'v'; 2048], room: ROOM },
        2 => Call::EncoderInsert { name: vec![b'n'; 256], value: Vec::new(), room: ROOM },
        3 => Call::EncoderInsert { name: b"date".to_vec(), value: b"x".to_vec(), room: random.below(4) as usize },
        4 if !gone.is_empty() => Call::EncoderDelete { index: *random.pick(&gone), room: ROOM },
        4 => Call::EncoderDelete { index: no_index(random), room: ROOM },
        5 => Call::EncoderDelete { index: 190 + random.below(1000), room: ROOM },
        6 => block(no_stream(random), part, Vec::new()),
        7 => block(stream, 2 + random.below(300), Vec::new()),
        8 => block(stream, part, random.pick(&[&[2][..], &[0], &[0, 1], &[0, 0x80, 0], &[0, 0xff, 0x80], &[1, 0, 0x80, 0x10]]).to_vec()),
        9 => {
            let (stream, part) = late(random, second.encoder.as_ref().map(|encoder| &encoder.closed));
            block(stream, part, Vec::new())
        }
        _ => Call::EncoderAcknowledge {
            bytes: random
                .pick(&[
                    &[][..],
                    &[0x80],
                    &[0x3e],
                    &[0x7d],
                    &[0x7f],
                    &[0x7f, 0x80, 0x80, 0x80, 0x80],
                    &[0x7f, 0xc9, 0x07],
                    &[0x7f, 0x80, 0],
                ])
                .to_vec(),
        },
    }
}
