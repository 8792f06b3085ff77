//! The state memory, from docs/STATE.md: which bytes a state is laid in, and what memory forms which state.
//!
//! `lay_*` writes the bytes that a state uses and leaves all others, so memory after a call is known byte by byte.
//! `*_in` reads a state back, or nothing where the memory forms none.
use std::collections::{BTreeMap, BTreeSet};

use crate::program::decoder::{Decoder, Delete};
use crate::program::encoder::{Encoder, Held};
use crate::program::instructions::StreamList;
use crate::program::tables::{Entry, Parts};

#[cfg(test)]
mod tests;

pub const DECODER_BYTES: usize = 35_912;
pub const ENCODER_BYTES: usize = 16_960;

pub const MARKS: usize = 64;
/// The number below every index of an entry, in front of the indexes, so that the first of these has one before it too.
pub const SENTINEL: usize = 1_088;
pub const INDEXES: usize = 1_092;
pub const OFFSETS: usize = 1_604;
pub const NAMES: usize = 1_862;
pub const STATUSES: usize = 1_990;
pub const TEXT: usize = 2_246;
pub const DELETES: usize = 7_232;
pub const DELETE: usize = 76;
/// The encoder's horizons of non-trailer and of trailer blocks.
pub const HORIZONS: [usize; 2] = [7_232, 7_488];
const LISTED: usize = 16;

/// A row of the table with its text.
struct Row {
    index: u64,
    entry: Entry,
    status: u64,
}

/// The part that both ends share.
struct Front {
    limit: u64,
    deletes: usize,
    /// The parts that take no more blocks: finished at the decoder, closed at the encoder.
    closed: Parts,
    rows: Vec<Row>,
}

fn put(memory: &mut [u8], at: usize, bytes: usize, value: u64) {
    memory[at..at + bytes].copy_from_slice(&value.to_le_bytes()[..bytes]);
}

fn get(memory: &[u8], at: usize, bytes: usize) -> u64 {
    memory[at..at + bytes].iter().rev().fold(0, |value, &byte| value << 8 | u64::from(byte))
}

fn lay_front(memory: &mut [u8], role: u64, front: &Front) {
    put(memory, 0, 1, role);
    put(memory, 1, 1, 2);
    put(memory, 2, 2, front.limit);
    put(memory, 4, 2, front.rows.iter().map(|row| row.entry.size()).sum());
    put(memory, 6, 2, front.rows.len() as u64);
    put(memory, 8, 2, front.deletes as u64);
    memory[10..MARKS].fill(0);
    let closed = front.closed.0.iter().flatten();
    let marks = &mut memory[MARKS..SENTINEL];
    marks.fill(0xff);
    for (number, _) in closed.enumerate().filter(|(_, &closed)| closed) {
        marks[number / 8] &= !(1 << (number % 8));
    }
    put(memory, SENTINEL, 4, 61);
    put(memory, OFFSETS, 2, 0);
    let mut text = Vec::new();
    for (place, row) in front.rows.iter().enumerate() {
        text.extend(&row.entry.name);
        text.extend(&row.entry.value);
        put(memory, INDEXES + 4 * place, 4, row.index);
        put(memory, OFFSETS + 2 * (place + 1), 2, text.len() as u64);
        put(memory, NAMES + place, 1, row.entry.name.len() as u64);
        put(memory, STATUSES + 2 * place, 2, row.status);
    }
    memory[TEXT..TEXT + text.len()].copy_from_slice(&text);
}

/// Points 1 to 4 of "What forms a state".
fn front_in(memory: &[u8], role: u64, highest: u64) -> Option<Front> {
    let (limit, held, count) = (get(memory, 2, 2), get(memory, 4, 2), get(memory, 6, 2));
    let head = get(memory, 0, 1) == role && get(memory, 1, 1) == 2 && memory[10..MARKS].iter().all(|&byte| byte == 0);
    if !head || limit > 4096 || held > 4096 || count > 128 {
        return None;
    }
    let count = count as usize;
    // The first of them is the sentinel.
    let indexes: Vec<u64> = (0..=count).map(|place| get(memory, SENTINEL + 4 * place, 4)).collect();
    let ascending = indexes.windows(2).all(|pair| pair[0] < pair[1]);
    if indexes[0] != 61 || !ascending || indexes[count] > highest {
        return None;
    }
    let offsets: Vec<u64> = (0..=count).map(|place| get(memory, OFFSETS + 2 * place, 2)).collect();
    if offsets[0] != 0 || held != offsets[count] + 32 * count as u64 {
        return None;
    }
    let text = |from: u64, length: u64| memory[TEXT + from as usize..][..length as usize].to_vec();
    let mut rows = Vec::new();
    for place in 0..count {
        let (start, end, name) = (offsets[place], offsets[place + 1], get(memory, NAMES + place, 1));
        let value = end.checked_sub(start + name)?;
        if end > 4096 || value > 2047 {
            return None;
        }
        let entry = Entry { name: text(start, name), value: text(start + name, value) };
        rows.push(Row { index: indexes[place + 1], entry, status: get(memory, STATUSES + 2 * place, 2) });
    }
    let closed = [0, 1].map(|part| (0..4096).map(|stream| memory[MARKS + 512 * part + stream / 8] >> (stream % 8) & 1 == 0).collect());
    Some(Front { limit, deletes: get(memory, 8, 2) as usize, closed: Parts(closed), rows })
}

pub fn lay_decoder(memory: &mut [u8], decoder: &Decoder) {
    let place = |index| decoder.deletes.iter().position(|delete| delete.index == index);
    let row =
        |(&index, entry): (&u64, &Entry)| Row { index, entry: entry.clone(), status: place(index).map_or(0, |place| place as u64 + 1) };
    let rows = decoder.entries.iter().map(row).collect();
    let front = Front { limit: decoder.limit, deletes: decoder.deletes.len(), closed: decoder.finished.clone(), rows };
    lay_front(memory, 1, &front);
    for (place, delete) in decoder.deletes.iter().enumerate() {
        let at = DELETES + DELETE * place;
        put(memory, at, 4, delete.index);
        for (list, at) in delete.lists.iter().zip([at + 4, at + 40]) {
            put(memory, at, 2, list.horizon);
            put(memory, at + 2, 2, list.listed.len() as u64);
            for number in 0..LISTED {
                put(memory, at + 4 + 2 * number, 2, list.listed.get(number).copied().unwrap_or(0));
            }
        }
    }
}

/// Point 6 of "What forms a state".
fn stream_list_in(memory: &[u8], at: usize) -> Option<StreamList> {
    let (horizon, count) = (get(memory, at, 2), get(memory, at + 2, 2) as usize);
    if horizon > 4096 || count > LISTED {
        return None;
    }
    let places: Vec<u64> = (0..LISTED).map(|number| get(memory, at + 4 + 2 * number, 2)).collect();
    let (listed, unused) = places.split_at(count);
    let ascending = listed.iter().zip([horizon].iter().chain(listed)).all(|(stream, before)| stream > before);
    let right = ascending && listed.iter().all(|&stream| stream <= 4095) && unused.iter().all(|&place| place == 0);
    right.then(|| StreamList { horizon, listed: listed.to_vec() })
}

pub fn decoder_in(memory: &[u8]) -> Option<Decoder> {
    if memory.len() < DECODER_BYTES {
        return None;
    }
    let front = front_in(memory, 1, (1 << 27) - 1)?;
    if front.deletes > 256 {
        return None;
    }
    let mut deletes = Vec::new();
    for place in 0..front.deletes {
        let at = DELETES + DELETE * place;
        let lists = [stream_list_in(memory, at + 4)?, stream_list_in(memory, at + 40)?];
        deletes.push(Delete { index: get(memory, at, 4), lists });
    }
    let pointing: Vec<&Row> = front.rows.iter().filter(|row| row.status != 0).collect();
    let points = |row: &&Row| deletes.get(row.status as usize - 1).is_some_and(|delete| delete.index == row.index);
    if !pointing.iter().all(points) || pointing.len() != deletes.len() {
        return None;
    }
    let entries = front.rows.into_iter().map(|row| (row.index, row.entry)).collect();
    Some(Decoder { limit: front.limit, entries, deletes, finished: front.closed })
}

pub fn lay_encoder(memory: &mut [u8], encoder: &Encoder) {
    let row = |(&index, held): (&u64, &Held)| Row { index, entry: held.entry.clone(), status: u64::from(held.deleting) };
    let rows = encoder.entries.iter().map(row).collect();
    lay_front(memory, 2, &Front { limit: encoder.limit, deletes: 0, closed: encoder.closed.clone(), rows });
    for (place, held) in encoder.entries.values().enumerate() {
        for (part, at) in HORIZONS.into_iter().enumerate() {
            put(memory, at + 2 * place, 2, held.horizon(part));
        }
    }
}

pub fn encoder_in(memory: &[u8]) -> Option<Encoder> {
    if memory.len() < ENCODER_BYTES {
        return None;
    }
    let front = front_in(memory, 2, 189)?;
    let mut entries = BTreeMap::new();
    for (place, row) in front.rows.into_iter().enumerate() {
        let horizons = HORIZONS.map(|at| get(memory, at + 2 * place, 2));
        if row.status > 1 || horizons.iter().any(|&horizon| horizon > 4096) {
            return None;
        }
        // Of the streams that refer, memory keeps the highest alone.
        let references = horizons.map(|horizon| BTreeSet::from_iter(horizon.checked_sub(1)));
        entries.insert(row.index, Held { entry: row.entry, deleting: row.status == 1, references });
    }
    (front.deletes == 0).then_some(Encoder { limit: front.limit, entries, closed: front.closed })
}

/// Whether two encoders are the same as far as memory keeps them: of the referring streams, the horizons.
pub fn same_encoder(one: &Encoder, other: &Encoder) -> bool {
    let kept = |encoder: &Encoder| -> Vec<(u64, Entry, bool, [u64; 2])> {
        let row = |(&index, held): (&u64, &Held)| (index, held.entry.clone(), held.deleting, [held.horizon(0), held.horizon(1)]);
        encoder.entries.iter().map(row).collect()
    };
    one.limit == other.limit && one.closed == other.closed && kept(one) == kept(other)
}
