//! Memory that somebody else wrote: each damage leaves a state or none, by docs/STATE.md as `layout` reads it, and the calls that
//! follow are held to that.
use super::pairs::Pairs;
use super::words::{Style, Words};
use super::{hostile, made_up};
use crate::library::compare::{Bench, Ran};
use crate::library::layout::{DELETE, DELETES, HORIZONS, INDEXES, MARKS, NAMES, OFFSETS, SENTINEL, STATUSES, TEXT};
use crate::program::call::{Call, End};
use crate::program::wire::{LARGEST, NAME_MOST, VALUE_MOST};
use crate::random::Random;
use crate::recording::Step;

pub fn run(style: Style, mut random: Random, calls: usize, bench: &mut Bench) -> Ran<()> {
    let mut pairs = Pairs::new(&random, style);
    let words = Words::new(&mut random, style);
    hostile::memories(&mut random, bench);
    while bench.calls < calls {
        if random.percent(40) {
            made_up::lay(&mut random, bench);
            if random.percent(50) {
                hostile::collect_all(&mut random, bench)?;
            }
        } else {
            hostile::start(&mut random, bench)?;
        }
        some_calls(&mut random, bench, &words, &mut pairs, 40)?;
        for _ in 0..random.between(1, 12) {
            let end = *random.pick(&[End::Decoder, End::Encoder]);
            let (at, bytes) = damage(&mut random, bench.memory(end), end);
            let before = bench.memory(end)[at..at + bytes.len()].to_vec();
            bench.note(Step::Damage { end, at, bytes });
            let known = state_of(bench, end);
            some_calls(&mut random, bench, &words, &mut pairs, 5)?;
            // Bytes that no call wrote may be put back; else the damage stays.
            if !known {
                bench.note(Step::Damage { end, at, bytes: before });
            }
        }
    }
    Ok(())
}

fn state_of(bench: &Bench, end: End) -> bool {
    match end {
        End::Decoder => bench.second.decoder.is_some(),
        End::Encoder => bench.second.encoder.is_some(),
    }
}

fn some_calls(random: &mut Random, bench: &mut Bench, words: &Words, pairs: &mut Pairs, most: u64) -> Ran<()> {
    for _ in 0..random.between(1, most) {
        let call = hostile::call(random, bench, words, 70);
        if !matches!(call, Call::DecoderStart { .. } | Call::EncoderStart { .. }) {
            let call = hostile::roomed(random, bench, call);
            bench.call(call)?;
            pairs.now_and_then(bench)?;
        }
    }
    Ok(())
}

fn number(memory: &[u8], at: usize, width: usize) -> u64 {
    memory[at..at + width].iter().rev().fold(0, |value, &byte| value << 8 | u64::from(byte))
}

fn rows_in(memory: &[u8]) -> usize {
    number(memory, 6, 2).min(128) as usize
}

/// The place and the width of a number in memory: of the head, of a row, of a delete or of a horizon, mostly one in use.
fn place(random: &mut Random, memory: &[u8], end: End) -> (usize, usize) {
    let (rows, deletes) = (number(memory, 6, 2).min(127), number(memory, 8, 2).min(255));
    let row = if random.percent(30) { rows.saturating_sub(1) } else { random.below(rows + 1) } as usize;
    let delete = DELETES + DELETE * random.below(deletes + 1) as usize;
    match (random.below(4), end) {
        (0, _) => {
            let zero = random.between(10, 63) as usize;
            *random.pick(&[(0, 1), (1, 1), (2, 2), (4, 2), (6, 2), (8, 2), (zero, 1), (zero, 1)])
        }
        (1, _) | (2, End::Encoder) => {
            let (offset, end) = (OFFSETS + 2 * row, OFFSETS + 2 * (row + 1));
            let index = INDEXES + 4 * row;
            *random.pick(&[(SENTINEL, 4), (index, 4), (OFFSETS, 2), (offset, 2), (end, 2), (NAMES + row, 1), (STATUSES + 2 * row, 2)])
        }
        (_, End::Encoder) => (*random.pick(&HORIZONS) + 2 * row, 2),
        (2, End::Decoder) => {
            let (at, width) = *random.pick(&[(0, 4), (4, 2), (6, 2), (40, 2), (42, 2)]);
            (delete + at, width)
        }
        (_, End::Decoder) => {
            // The last listed stream of either list, or any place for one.
            let list = delete + *random.pick(&[4, 40]);
            let last = (number(memory, list + 2, 2) as usize).clamp(1, 16) - 1;
            let listed = if random.percent(50) { last } else { random.below(16) as usize };
            (list + 4 + 2 * listed, 2)
        }
    }
}

/// Numbers on which the rules of docs/STATE.md turn: indexes, streams and horizons, and all.
const INDEX_EDGES: [u64; 7] = [61, 62, 189, 190, LARGEST, LARGEST + 1, u64::MAX];
const STREAM_EDGES: [u64; 5] = [0, 4094, 4095, 4096, 4097];
const EDGES: [u64; 22] = [0, 1, 2, 3, 16, 17, 61, 62, 63, 128, 129, 189, 190, 255, 256, 257, 2047, 2048, 4095, 4096, 4097, u64::MAX];

/// Where to write, and what.
fn damage(random: &mut Random, memory: &[u8], end: End) -> (usize, Vec<u8>) {
    match random.below(15) {
        0 => {
            let at = MARKS + random.below((SENTINEL - MARKS - 64) as u64) as usize;
            (at, random.bytes(64))
        }
        1 => {
            let at = random.below(memory.len() as u64) as usize;
            (at, vec![memory[at] ^ 1 << random.below(8)])
        }
        2 => (TEXT + random.below(4000) as usize, random.bytes(40)),
        3 => text_divided(random, memory),
        4 => of_another_row(random, memory),
        5 => not_in_use(random, memory, end),
        6 => texts_around(random, memory),
        _ => {
            let (at, width) = place(random, memory, end);
            let old = number(memory, at, width);
            let new = match random.below(5) {
                0 => old.wrapping_add(1),
                1 => old.wrapping_sub(1),
                2 => random.next(),
                _ if width == 4 => *random.pick(&INDEX_EDGES),
                3 => *random.pick(&STREAM_EDGES),
                _ => *random.pick(&EDGES),
            };
            (at, bytes_of(new, width))
        }
    }
}

fn bytes_of(number: u64, width: usize) -> Vec<u8> {
    number.to_le_bytes()[..width].to_vec()
}

/// Some row's text divided elsewhere into name and value, or ending elsewhere, so that the next row's begins there: near to where it did,
/// and at what a name and a value may have. The sum of all texts stays what it was, unless it is the last row's.
fn text_divided(random: &mut Random, memory: &[u8]) -> (usize, Vec<u8>) {
    let row = random.below(rows_in(memory).max(1) as u64) as usize;
    let [start, end] = [row, row + 1].map(|row| number(memory, OFFSETS + 2 * row, 2));
    let name = number(memory, NAMES + row, 1);
    if random.percent(50) {
        let length = end.wrapping_sub(start);
        let new = *random.pick(&[name + 1, name.wrapping_sub(1), name + 100, length, length.wrapping_add(1)]);
        return (NAMES + row, bytes_of(new, 1));
    }
    let behind = start + name;
    let new = *random.pick(&[end + 1, end.wrapping_sub(1), behind, behind.wrapping_sub(1), behind + VALUE_MOST, behind + VALUE_MOST + 1]);
    (OFFSETS + 2 * (row + 1), bytes_of(new, 2))
}

/// A row's index, text offset or status put in the place of another row's: of the one before it, or of any. In front of the first index
/// stands the sentinel.
fn of_another_row(random: &mut Random, memory: &[u8]) -> (usize, Vec<u8>) {
    let rows = rows_in(memory).max(1) as u64;
    let row = random.below(rows) as usize;
    let (column, width, first) = *random.pick(&[(INDEXES, 4, SENTINEL), (OFFSETS, 2, OFFSETS), (STATUSES, 2, STATUSES)]);
    let at = column + width * row;
    let from = if random.percent(50) { (at - width).max(first) } else { column + width * random.below(rows) as usize };
    (at, memory[from..from + width].to_vec())
}

/// Bytes that the state does not use, more often than not directly behind some that it does. They must make no difference.
fn not_in_use(random: &mut Random, memory: &[u8], end: End) -> (usize, Vec<u8>) {
    let (rows, deletes) = (rows_in(memory), number(memory, 8, 2).min(256) as usize);
    let text = number(memory, OFFSETS + 2 * rows, 2).min(4096) as usize;
    let mut unused = vec![
        INDEXES + 4 * rows..OFFSETS,
        OFFSETS + 2 * (rows + 1)..NAMES,
        NAMES + rows..STATUSES,
        STATUSES + 2 * rows..TEXT,
        TEXT + text..DELETES,
    ];
    match end {
        End::Decoder => unused.push(DELETES + DELETE * deletes..memory.len()),
        End::Encoder => unused.extend([HORIZONS[0] + 2 * rows..HORIZONS[1], HORIZONS[1] + 2 * rows..memory.len()]),
    }
    unused.retain(|range| !range.is_empty());
    let range = random.pick(&unused).clone();
    let at = if random.percent(60) { range.start } else { range.start + random.below(range.len() as u64) as usize };
    let length = random.between(1, 64) as usize;
    (at, random.bytes(length.min(range.end - at)))
}

/// Texts as long as they may be, so many that 65,536 is added: to where the last one ends, or to that and 32 for each row, which is the held
/// size. In 16 bits either looks right. Of too few rows all are that long.
fn texts_around(random: &mut Random, memory: &[u8]) -> (usize, Vec<u8>) {
    let rows = rows_in(memory);
    let mut bytes = memory[..STATUSES].to_vec();
    let mut left = 65_536 + number(memory, OFFSETS + 2 * rows, 2);
    if random.percent(50) {
        let held = random.below(32 * rows as u64 + 1);
        bytes[4..6].copy_from_slice(&bytes_of(held, 2));
        left = 65_536 + held - 32 * rows as u64;
    }
    let mut offset = 0;
    for row in 0..rows {
        let length = left.min(NAME_MOST + VALUE_MOST);
        (left, offset) = (left - length, offset + length);
        bytes[NAMES + row] = length.min(NAME_MOST) as u8;
        let at = OFFSETS + 2 * (row + 1);
        bytes[at..at + 2].copy_from_slice(&bytes_of(offset, 2));
    }
    (4, bytes.split_off(4))
}
