//! Names beside the static ones through both programs. Document 02 makes the search for a name quicker, with the same answers and bytes
//! as before: every static name and every change of it by one byte is written in blocks and inserted, with a value of its own and another.
use std::time::Instant;

use crate::current;
use crate::library::calls::Library;
use crate::library::compare::{Bench, Difference, Ran};
use crate::library::layout::ENCODER_BYTES;
use crate::program::blocks::{self, Representation, BLOCK_MOST};
use crate::program::call::{Call, End, Outcome};
use crate::program::fields::{list_of, Field};
use crate::program::instructions::Name;
use crate::program::statics;
use crate::program::tables::LIMIT_MOST;
use crate::recording::{line_of, Step};
use crate::shrink;

/// What stands in front of a name or behind it where it is a byte longer.
const MORE: &[u8] = b"\0 -:aest\x7f\x80\xff";
/// More bytes than name and value that a field takes in a block, an insert on the wire, and an entry in a table.
const FIELD_MORE: usize = 7;
const INSERT_MORE: usize = 9;
const ENTRY_MORE: usize = 32;

/// The text with each of its bytes changed to each other value.
fn changed(text: &[u8]) -> impl Iterator<Item = Vec<u8>> + '_ {
    let bytes = (0..text.len()).flat_map(|at| (0..=u8::MAX).map(move |byte| (at, byte)));
    bytes.filter(|&(at, byte)| text[at] != byte).map(|(at, byte)| {
        let mut other = text.to_vec();
        other[at] = byte;
        other
    })
}

/// The text without its first byte, without its last one, and with one more in front or behind; it is not empty.
fn one_less_or_more(text: &[u8]) -> impl Iterator<Item = Vec<u8>> + '_ {
    let less = [text[1..].to_vec(), text[..text.len() - 1].to_vec()];
    less.into_iter().chain(MORE.iter().flat_map(move |&byte| [[&[byte], text].concat(), [text, &[byte]].concat()]))
}

/// The text with each two of its bytes exchanged.
fn exchanged(text: &[u8]) -> impl Iterator<Item = Vec<u8>> + '_ {
    let pairs = (0..text.len()).flat_map(|one| (0..one).map(move |other| (one, other)));
    pairs.filter(|&(one, other)| text[one] != text[other]).map(|(one, other)| {
        let mut text = text.to_vec();
        text.swap(one, other);
        text
    })
}

/// The next value of the table that differs from the one at this index.
fn other_value(index: u64) -> &'static [u8] {
    let value = statics::at(index).1;
    let others = (index..=statics::LAST).chain(1..index).map(|other| statics::at(other).1);
    others.into_iter().find(|other| *other != value).expect("the values are not all alike")
}

fn field(never: bool, name: &[u8], value: &[u8]) -> Field {
    Field { never, name: name.to_vec(), value: value.to_vec() }
}

/// Static names: with the value of each entry, to be stored and never, and with each change of their own by one byte.
fn with_static_name(index: u64) -> Vec<Field> {
    let (name, value) = statics::at(index);
    let mut fields = Vec::new();
    for other in 1..=statics::LAST {
        fields.extend([false, true].map(|never| field(never, name, statics::at(other).1)));
    }
    fields.extend(changed(value).map(|value| field(false, name, &value)));
    fields.extend(MORE.iter().map(|&byte| field(false, name, &[value, &[byte]].concat())));
    fields
}

/// Names beside the static one, each with the value of the entry and with another.
fn beside(index: u64) -> Vec<Field> {
    let (name, value) = statics::at(index);
    let names = changed(name).chain(one_less_or_more(name)).chain(exchanged(name));
    let pair = |(number, name): (usize, Vec<u8>)| [field(false, &name, value), field(number % 2 == 0, &name, other_value(index))];
    names.enumerate().flat_map(pair).collect()
}

/// Names of every length that are no static ones.
fn of_every_length() -> Vec<Field> {
    let texts = (0..=255).flat_map(|length| [b'a', b':', 0].map(|byte| vec![byte; length]));
    let bytes = (0..=u8::MAX).map(|byte| vec![byte]);
    texts.chain(bytes).map(|name| field(false, &name, b"")).collect()
}

type Compare = fn(&[Field], &mut Bench, &mut Compared) -> Ran<()>;

/// What was compared.
#[derive(Default)]
struct Compared {
    fields: usize,
    blocks: usize,
    inserts: usize,
    /// Fields that were written by a static index, or with a static name.
    by_static: usize,
}

fn by_static(block: &[u8]) -> usize {
    let is = |one: &Representation| match one {
        Representation::Indexed(index) | Representation::Literal { name: Name::Index(index), .. } => *index <= statics::LAST,
        Representation::Literal { .. } => false,
    };
    blocks::read(block).map_or(0, |block| block.iter().filter(|one| is(one)).count())
}

fn done(bench: &mut Bench, call: Call) -> Ran<Outcome> {
    let outcome = bench.call(call)?;
    if outcome.done() {
        Ok(outcome)
    } else {
        bench.broken("a field that fits is refused".to_string())
    }
}

fn start(bench: &mut Bench) -> Ran<()> {
    bench.note(Step::Memory { end: End::Encoder, length: ENCODER_BYTES, seed: 0 });
    done(bench, Call::EncoderStart { limit: LIMIT_MOST }).map(drop)
}

fn block(fields: &[Field], stream: u64, bench: &mut Bench, compared: &mut Compared) -> Ran<()> {
    let list = list_of(fields);
    let room = bytes_of(fields);
    let outcome = done(bench, Call::EncoderBlock { stream, part: 0, list, room })?;
    compared.blocks += 1;
    compared.fields += fields.len();
    compared.by_static += by_static(&outcome.output);
    Ok(())
}

/// Fields of one block, on a fresh table.
fn in_a_block(fields: &[Field], bench: &mut Bench, compared: &mut Compared) -> Ran<()> {
    start(bench)?;
    block(fields, 0, bench, compared)
}

/// Fields of one table: a block of them, inserts of them all, and the block again.
fn in_a_table(fields: &[Field], bench: &mut Bench, compared: &mut Compared) -> Ran<()> {
    start(bench)?;
    block(fields, 0, bench, compared)?;
    for Field { name, value, .. } in fields {
        let room = name.len() + value.len() + INSERT_MORE;
        done(bench, Call::EncoderInsert { name: name.clone(), value: value.clone(), room })?;
    }
    compared.inserts += fields.len();
    block(fields, 1, bench, compared)
}

/// Says which field fails, if one alone does, and how.
fn explain(fields: &[Field], difference: Difference, library: &mut Library) -> String {
    for field in fields {
        let mut bench = Bench::new(Some(&mut *library));
        let Err(difference) = in_a_table(std::slice::from_ref(field), &mut bench, &mut Compared::default()) else { continue };
        let steps = bench.steps;
        let (steps, what) = shrink::shrink(&steps, library).map_or((steps, difference.what), |(steps, found)| (steps, found.what));
        let lines: Vec<String> = steps.iter().map(line_of).collect();
        let [name, value] = [&field.name, &field.value].map(|text| text.escape_ascii().to_string());
        return format!("name \"{name}\", value \"{value}\": {what}\n{}", lines.join("\n"));
    }
    format!("{} fields together: {}", fields.len(), difference.what)
}

/// The most bytes that the fields take in a block.
fn bytes_of(fields: &[Field]) -> usize {
    fields.iter().map(|field| field.name.len() + field.value.len() + FIELD_MORE).sum()
}

/// The size of their entries.
fn size_of(fields: &[Field]) -> usize {
    fields.iter().map(|field| field.name.len() + field.value.len() + ENTRY_MORE).sum()
}

/// The fields in parts, each as long as it can be with this measure, which of one field is no more than that.
fn parts(fields: &[Field], measure: impl Fn(&[Field]) -> usize, most: usize) -> Vec<&[Field]> {
    let mut parts = Vec::new();
    let (mut from, mut sum) = (0, 0);
    for at in 0..fields.len() {
        let more = measure(&fields[at..=at]);
        if sum + more > most {
            parts.push(&fields[from..at]);
            (from, sum) = (at, 0);
        }
        sum += more;
    }
    parts.push(&fields[from..]);
    parts
}

/// Compares on all names; true where nothing differs.
pub fn all() -> Result<bool, String> {
    current::set("second names".to_string());
    let begun = Instant::now();
    let mut library = Library::new();
    let mut compared = Compared::default();
    let indexes = 1..=statics::LAST;
    let fields = indexes.clone().flat_map(with_static_name).chain(of_every_length()).chain(indexes.flat_map(beside));
    let fields: Vec<Field> = fields.collect();
    let blocks = parts(&fields, bytes_of, BLOCK_MOST).into_iter().map(|part| (in_a_block as Compare, part));
    let tables = parts(&fields, size_of, LIMIT_MOST as usize).into_iter().map(|part| (in_a_table as Compare, part));
    for (compare, part) in blocks.chain(tables) {
        let mut bench = Bench::new(Some(&mut library));
        if let Err(difference) = compare(part, &mut bench, &mut compared) {
            return Err(format!("names: {}", explain(part, difference, &mut library)));
        }
    }
    let (all, seconds) = (fields.len(), begun.elapsed().as_secs_f64());
    let Compared { fields, blocks, inserts, by_static } = compared;
    println!("names: {all} fields: {fields} in {blocks} blocks, {by_static} of them with a static name, and {inserts} in inserts compared, {seconds:.1} s");
    Ok(by_static > 0 && by_static < fields)
}
