//! Bytes as a faulty or hostile peer sends them: near to right ones, so that every rule is reached, then mutated.
use super::packed;
use super::words::{Style, Words};
use crate::program::call::Second;
use crate::program::fields::{list_of, Field};
use crate::program::instructions::STREAMS;
use crate::program::wire::{put_groups, put_integer, LARGEST, NAME_MOST, PACKED, VALUE_MOST};
use crate::random::Random;
use crate::recording::BYTES_MOST;

/// Numbers at the edges of prefixes and of what is allowed.
const EDGES: [u64; 20] = [0, 1, 60, 61, 62, 63, 64, 126, 127, 128, 189, 190, 254, 255, 256, 4095, 4096, 4097, LARGEST, LARGEST + 1];

/// An index: mostly one that is held, or near, or an edge.
pub fn index(random: &mut Random, held: &[u64]) -> u64 {
    match random.below(20) {
        0 => *random.pick(&EDGES),
        1 => random.below(LARGEST + 1),
        2 | 3 => random.between(1, 61),
        4..=8 => random.between(62, 80),
        _ if held.is_empty() => random.between(62, 66),
        _ => *random.pick(held),
    }
}

/// The indexes that the decoder holds, and those that the encoder holds.
pub fn held(second: &Second) -> [Vec<u64>; 2] {
    let decoder = second.decoder.iter().flat_map(|decoder| decoder.entries.keys().copied()).collect();
    let encoder = second.encoder.iter().flat_map(|encoder| encoder.entries.keys().copied()).collect();
    [decoder, encoder]
}

/// Of a hundred integers in bytes that have padded ones, so many are.
const PADDED: u64 = 20;

/// Bytes that are being written for a reader. Some have padded integers, in any place.
struct Bytes {
    out: Vec<u8>,
    pads: bool,
}

impl Bytes {
    fn new(random: &mut Random) -> Bytes {
        Bytes { out: Vec::new(), pads: random.percent(10) }
    }

    /// An integer in its shortest form, or padded; a value above the largest where that is given.
    fn integer(&mut self, random: &mut Random, pattern: u8, width: u32, value: u64) {
        if self.pads && random.percent(PADDED) {
            self.padded(random, pattern, width, value);
        } else {
            put_integer(&mut self.out, pattern, width, value);
        }
    }

    /// A padded integer, now and then with a group too many; of another value where this one takes no group.
    fn padded(&mut self, random: &mut Random, pattern: u8, width: u32, value: u64) {
        let ones = (1u64 << width) - 1;
        let others = [ones, ones + 1, ones + 127, ones + 128, 300, STREAMS - 1, STREAMS, STREAMS + 1];
        let value = if value < ones { *random.pick(&others) } else { value };
        self.out.push(pattern | ones as u8);
        put_groups(&mut self.out, value - ones);
        for _ in 0..*random.pick(&[1, 1, 1, 2, 2, 3, 4]) {
            *self.out.last_mut().expect("a prefix was written") |= 0x80;
            self.out.push(0);
        }
    }

    /// A string of which `most` bytes are allowed, plain or packed, now and then with H set over plain bytes or a length that is not its own.
    fn string(&mut self, random: &mut Random, text: &[u8], most: u64) {
        if self.pads && random.percent(PADDED) {
            return self.padded_string(random, most);
        }
        let (pattern, bytes) = match random.below(50) {
            0 => (PACKED, text.to_vec()),
            1..=15 => (PACKED, packed::string(random, text, most)),
            _ => (0, text.to_vec()),
        };
        let length = match random.below(60) {
            0 => *random.pick(&[255, 256, 1020, 1021, 2047, 2048, 2049, 8188, 8189, LARGEST]),
            1 => bytes.len() as u64 + 1,
            _ => bytes.len() as u64,
        };
        self.integer(random, pattern, 7, length);
        self.out.extend_from_slice(&bytes);
    }

    /// A string as long as its length says, which is padded; plain or packed, and in some too long.
    fn padded_string(&mut self, random: &mut Random, most: u64) {
        let length = match random.below(20) {
            0 => *random.pick(&[most, most + 1, 4 * most]),
            _ => *random.pick(&[127, 128, 254, 255, 256]),
        };
        let (pattern, byte) = *random.pick(&[(0, b'X'), (PACKED, packed::EIGHT_BITS)]);
        self.padded(random, pattern, 7, length);
        self.out.extend(vec![byte; length as usize]);
    }

    fn name(&mut self, random: &mut Random, pattern: u8, width: u32, held: &[u64], name: &[u8]) {
        if random.percent(50) {
            self.integer(random, pattern, width, 0);
            self.string(random, name, NAME_MOST);
        } else {
            let index = index(random, held);
            self.integer(random, pattern, width, index);
        }
    }

    fn stream_list(&mut self, random: &mut Random, words: &Words) {
        let horizon = match random.below(8) {
            0 => *random.pick(&[63, 64, 65, 255, 4095, 4096, 4097]),
            1 => random.below(STREAMS),
            2..=4 => 0,
            _ => random.below(8),
        };
        self.integer(random, 0, 8, horizon);
        let mut count = if random.percent(60) { 0 } else { random.below(18) };
        // Not in reports, of which recordings are made.
        if words.style() != Style::Reports && random.percent(4) {
            count = *random.pick(&[16, 17, 254, 255, 256, 383]);
        }
        self.integer(random, 0, 8, count);
        for _ in 0..count.min(20) {
            let delta = match random.below(12) {
                0 => *random.pick(&[0, 64, 254, 255, 256, 4095]),
                _ => random.between(1, 9),
            };
            self.integer(random, 0, 8, delta);
        }
    }
}

/// An instruction for the decoder.
pub fn instruction(random: &mut Random, held: &[u64], words: &Words) -> Vec<u8> {
    let mut bytes = Bytes::new(random);
    let kind = random.below(100);
    if kind < 60 {
        let new = if random.percent(60) { random.between(62, 200) } else { index(random, held) };
        bytes.integer(random, 0x80, 7, new);
        let field = words.field(random);
        bytes.name(random, 0, 8, held, &field.name);
        bytes.string(random, &field.value, VALUE_MOST);
    } else if kind < 98 {
        let index = index(random, held);
        bytes.integer(random, 0, 6, index);
        bytes.stream_list(random, words);
        bytes.stream_list(random, words);
    } else {
        return acknowledgement(random, held);
    }
    bytes.out
}

/// An acknowledgement for the encoder.
pub fn acknowledgement(random: &mut Random, held: &[u64]) -> Vec<u8> {
    let mut bytes = Bytes::new(random);
    let index = index(random, held);
    bytes.integer(random, 0x40, 6, index);
    bytes.out
}

/// A block for the decoder.
pub fn block(random: &mut Random, held: &[u64], words: &Words) -> Vec<u8> {
    let mut bytes = Bytes::new(random);
    let fields = match random.below(300) {
        // Too long to be a block, or to be told in the lent room.
        0 => return vec![*random.pick(&[0x82, 0xbe, 0xa0]); *random.pick(&[16_383, 16_384, 16_385, 20_000])],
        1..=10 => random.between(20, 60),
        _ => random.below(6),
    };
    for _ in 0..fields {
        if random.percent(50) {
            let index = if random.percent(98) { index(random, held).max(1) } else { 0 };
            bytes.integer(random, 0x80, 7, index);
        } else {
            let field = words.field(random);
            let never = if field.never { 0x40 } else { 0 };
            bytes.name(random, never, 6, held, &field.name);
            bytes.string(random, &field.value, VALUE_MOST);
        }
    }
    bytes.out.truncate(BYTES_MOST);
    bytes.out
}

/// A field list whose block has 16,383, 16,384 or 16,385 bytes, since nine of its values are packed: 1,797 bytes for each of their
/// fields, and four more than its value for the last.
fn longest_list(random: &mut Random) -> Vec<u8> {
    let field = |value: Vec<u8>| Field { never: true, name: Vec::new(), value };
    let mut fields = vec![field(vec![b'v'; 2047]); 9];
    fields.push(field(vec![b'X'; random.between(206, 208) as usize]));
    list_of(&fields)
}

/// A field list for the encoder, with lengths that may be padded, too large or not their own.
pub fn list(random: &mut Random, words: &Words) -> Vec<u8> {
    if words.style() == Style::Long && random.percent(1) {
        return longest_list(random);
    }
    let mut out = Vec::new();
    let fields = match random.below(200) {
        0 => random.between(1_000, 6_000),
        1..=4 => random.between(20, 60),
        _ => random.below(6),
    };
    for _ in 0..fields {
        let field = words.field(random);
        out.push(if random.percent(99) { u8::from(field.never) } else { random.below(256) as u8 });
        for text in [&field.name, &field.value] {
            put_list_length(random, &mut out, text.len() as u64, fields > 60);
            out.extend_from_slice(text);
        }
    }
    out.truncate(BYTES_MOST);
    out
}

fn put_list_length(random: &mut Random, out: &mut Vec<u8>, length: u64, right: bool) {
    let value = match random.below(if right { 100_000 } else { 120 }) {
        0 => *random.pick(&[255, 256, 2047, 2048, 16_383, 16_384]),
        1 => length + 1,
        _ => length,
    };
    let padded = !right && random.percent(1);
    if value < 0x80 && !padded {
        out.push(value as u8);
    } else if value < 0x4000 {
        out.extend([0x80 | (value & 0x7f) as u8, (value >> 7) as u8]);
    } else {
        out.extend([0x80 | (value & 0x7f) as u8, 0x80 | (value >> 7 & 0x7f) as u8, (value >> 14) as u8]);
    }
}

/// Changes, cuts, lengthens or replaces bytes.
pub fn mutate(random: &mut Random, bytes: &mut Vec<u8>) {
    let at = random.below(bytes.len() as u64 + 1) as usize;
    match random.below(8) {
        0 => bytes.truncate(at),
        1 => bytes.insert(at, random.next() as u8),
        2 if at < bytes.len() => drop(bytes.remove(at)),
        3 if at < bytes.len() => bytes[at] = *random.pick(&[0x00, 0x01, 0x7f, 0x80, 0xff, 0x3f, 0x40]),
        4 if at < bytes.len() => bytes[at] ^= 1 << random.below(8),
        5 => {
            let more = random.below(20) as usize;
            bytes.extend(random.bytes(more));
        }
        6 => {
            let length = *random.pick(&[0, 1, 2, 3, 7, 30]);
            *bytes = random.bytes(length);
        }
        _ => (),
    }
}

/// Cuts directly behind a byte that says of a number or a length that more of it follows, or somewhere near the front.
pub fn cut(random: &mut Random, bytes: &mut Vec<u8>) {
    let open: Vec<usize> = (0..bytes.len()).filter(|&at| matches!(bytes[at], 0x3f | 0x7f..)).take(20).collect();
    let length = if open.is_empty() || random.percent(30) { random.below(12) as usize } else { *random.pick(&open) + 1 };
    bytes.truncate(length);
}
