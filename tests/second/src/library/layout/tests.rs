//! docs/STATE.md by bytes that were put together by hand, so no place is taken from `layout`.
use std::collections::{BTreeMap, BTreeSet};

use super::{decoder_in, encoder_in, lay_decoder, lay_encoder};
use crate::program::decoder::{Decoder, Delete};
use crate::program::encoder::{Encoder, Held};
use crate::program::instructions::StreamList;
use crate::program::tables::{Entry, Parts};

const DECODER: usize = 35_912;
const ENCODER: usize = 16_960;
/// What stands where a state has nothing.
const FREE: u8 = 0xa5;

type Pieces = Vec<(usize, Vec<u8>)>;

fn write(memory: &mut [u8], pieces: &[(usize, Vec<u8>)]) {
    for (at, bytes) in pieces {
        memory[*at..at + bytes.len()].copy_from_slice(bytes);
    }
}

fn memory_of(length: usize, pieces: &[(usize, Vec<u8>)]) -> Vec<u8> {
    let mut memory = vec![FREE; length];
    write(&mut memory, pieces);
    memory
}

fn entry(name: &str, value: &str) -> Entry {
    Entry { name: name.into(), value: value.into() }
}

fn list(horizon: u64, listed: &[u64]) -> StreamList {
    StreamList { horizon, listed: listed.to_vec() }
}

/// Three entries, of which the last and the first are under deletion. Streams 0 and 9 have no more non-trailer blocks, 4,095 no trailer.
fn decoder() -> Decoder {
    let entries = BTreeMap::from([(62, entry("ab", "c")), (70, entry("", "xyz")), (134_217_727, entry("n", ""))]);
    let deletes = vec![
        Delete { index: 134_217_727, lists: [list(5, &[6, 4095]), list(0, &[])] },
        Delete { index: 62, lists: [list(0, &[]), list(4096, &[])] },
    ];
    let mut finished = Parts::none();
    [(0, 0), (0, 9), (1, 4095)].into_iter().for_each(|(part, stream)| finished.add(part, stream));
    Decoder { limit: 4096, entries, deletes, finished }
}

fn decoder_pieces() -> Pieces {
    vec![
        (0, vec![1, 2, 0x00, 0x10, 0x67, 0x00, 3, 0, 2, 0]),
        (10, vec![0; 54]),
        (64, vec![0xff; 1024]),
        (64, vec![0xfe, 0xfd]),
        (1_087, vec![0x7f]),
        (1_088, vec![0x3d, 0, 0, 0]),
        (1_092, vec![0x3e, 0, 0, 0, 0x46, 0, 0, 0, 0xff, 0xff, 0xff, 0x07]),
        (1_604, vec![0, 0, 3, 0, 6, 0, 7, 0]),
        (1_862, vec![2, 0, 1]),
        (1_990, vec![2, 0, 0, 0, 1, 0]),
        (2_246, b"abcxyzn".to_vec()),
        (7_232, vec![0; 152]),
        (7_232, vec![0xff, 0xff, 0xff, 0x07, 5, 0, 2, 0, 6, 0, 0xff, 0x0f]),
        (7_308, vec![0x3e, 0, 0, 0]),
        (7_348, vec![0x00, 0x10]),
    ]
}

/// Two entries: the last trailer refers to the first one; the second one is under deletion, and a block of stream 2 refers to it.
fn encoder() -> Encoder {
    let held = |entry, deleting, streams: [Option<u64>; 2]| Held { entry, deleting, references: streams.map(BTreeSet::from_iter) };
    let first = held(entry("name", "value"), false, [None, Some(4095)]);
    let entries = BTreeMap::from([(62, first), (189, held(entry("", ""), true, [Some(2), None]))]);
    Encoder { limit: 200, entries, closed: Parts::none() }
}

fn encoder_pieces() -> Pieces {
    vec![
        (0, vec![2, 2, 200, 0, 73, 0, 2, 0, 0, 0]),
        (10, vec![0; 54]),
        (64, vec![0xff; 1024]),
        (1_088, vec![61, 0, 0, 0]),
        (1_092, vec![62, 0, 0, 0, 189, 0, 0, 0]),
        (1_604, vec![0, 0, 9, 0, 9, 0]),
        (1_862, vec![4, 0]),
        (1_990, vec![0, 0, 1, 0]),
        (2_246, b"namevalue".to_vec()),
        (7_232, vec![0, 0, 3, 0]),
        (7_488, vec![0x00, 0x10, 0, 0]),
    ]
}

#[test]
fn states_stand_where_they_must() {
    for more in [0, 1, 1000] {
        let mut memory = vec![FREE; DECODER + more];
        lay_decoder(&mut memory, &decoder());
        assert!(memory == memory_of(DECODER + more, &decoder_pieces()));
        assert_eq!(decoder_in(&memory), Some(decoder()));
        let mut memory = vec![FREE; ENCODER + more];
        lay_encoder(&mut memory, &encoder());
        assert!(memory == memory_of(ENCODER + more, &encoder_pieces()));
        assert_eq!(encoder_in(&memory), Some(encoder()));
    }
}

#[test]
fn a_start_writes_little() {
    let empty = |role| vec![(0, vec![role, 2, 32, 0, 0, 0, 0, 0, 0, 0]), (10, vec![0; 54]), (64, vec![0xff; 1024])];
    let numbers = [(1_088, vec![61, 0, 0, 0]), (1_604, vec![0, 0])];
    let mut memory = vec![FREE; DECODER];
    lay_decoder(&mut memory, &Decoder::start(32).expect("a limit that may be"));
    assert!(memory == memory_of(DECODER, &[empty(1), numbers.to_vec()].concat()));
    let mut memory = vec![FREE; ENCODER];
    lay_encoder(&mut memory, &Encoder::start(32).expect("a limit that may be"));
    assert!(memory == memory_of(ENCODER, &[empty(2), numbers.to_vec()].concat()));
}

#[test]
fn vacated_bytes_stay() {
    let mut memory = memory_of(DECODER, &decoder_pieces());
    let mut state = decoder();
    state.entries.remove(&62);
    state.deletes.pop();
    lay_decoder(&mut memory, &state);
    let mut after = memory_of(DECODER, &decoder_pieces());
    let head = (4, vec![0x44, 0, 2, 0, 1, 0]);
    let columns = [
        (1_092, vec![0x46, 0, 0, 0, 0xff, 0xff, 0xff, 0x07]),
        (1_604, vec![0, 0, 3, 0, 4, 0]),
        (1_862, vec![0, 1]),
        (1_990, vec![0, 0, 1, 0]),
    ];
    write(&mut after, &[head, (2_246, b"xyzn".to_vec())]);
    write(&mut after, &columns);
    assert!(memory == after);
    assert_eq!(after[1_100..1_104], [0xff, 0xff, 0xff, 0x07], "the third index stands where it stood");

    let mut memory = memory_of(ENCODER, &encoder_pieces());
    let mut state = encoder();
    state.entries.remove(&62);
    lay_encoder(&mut memory, &state);
    let mut after = memory_of(ENCODER, &encoder_pieces());
    write(
        &mut after,
        &[(4, vec![32, 0, 1, 0]), (1_092, vec![189, 0, 0, 0]), (1_604, vec![0, 0, 0, 0]), (1_862, vec![0]), (1_990, vec![1, 0])],
    );
    write(&mut after, &[(7_232, vec![3, 0]), (7_488, vec![0, 0])]);
    assert!(memory == after);
}

/// All 128 rows, each in the last place of its column or before: one behind it would stand in the next column.
#[test]
fn the_columns_end_where_the_next_begin() {
    let full = |index: u64| Held { entry: entry("", ""), deleting: true, references: [BTreeSet::from([index]), BTreeSet::from([0])] };
    let state = Encoder { limit: 4096, entries: (62..190).map(|index| (index, full(index))).collect(), closed: Parts::none() };
    let mut memory = vec![FREE; ENCODER];
    lay_encoder(&mut memory, &state);
    assert_eq!(encoder_in(&memory), Some(state));
    let mut wanted =
        memory_of(ENCODER, &[(0, vec![2, 2, 0x00, 0x10, 0x00, 0x10, 128, 0, 0, 0]), (10, vec![0; 54]), (64, vec![0xff; 1024])]);
    wanted[1_088..1_604].copy_from_slice(&(61..190).flat_map(|index: u32| index.to_le_bytes()).collect::<Vec<u8>>());
    wanted[1_604..1_862].fill(0);
    wanted[1_862..1_990].fill(0);
    wanted[1_990..2_246].copy_from_slice(&[1, 0].repeat(128));
    wanted[7_232..7_488].copy_from_slice(&(63..191).flat_map(|horizon: u16| horizon.to_le_bytes()).collect::<Vec<u8>>());
    wanted[7_488..7_744].copy_from_slice(&[1, 0].repeat(128));
    assert!(memory == wanted);
}

fn no_decoder(what: &str, damage: &[(usize, Vec<u8>)]) {
    assert_eq!(decoder_in(&memory_of(DECODER, &[decoder_pieces(), damage.to_vec()].concat())), None, "{what}");
}

fn no_encoder(what: &str, damage: &[(usize, Vec<u8>)]) {
    assert_eq!(encoder_in(&memory_of(ENCODER, &[encoder_pieces(), damage.to_vec()].concat())), None, "{what}");
}

#[test]
fn damaged_memory_is_refused() {
    for (what, at, bytes) in [
        ("the other role", 0, vec![2]),
        ("another edition", 1, vec![3]),
        ("limit 4,097", 2, vec![0x01, 0x10]),
        ("a held size one too high", 4, vec![0x68, 0]),
        ("a held size one too low", 4, vec![0x66, 0]),
        ("a held size with its low byte right", 4, vec![0x67, 1]),
        ("a row fewer", 6, vec![2]),
        ("a row more", 6, vec![4]),
        ("129 rows", 6, vec![129]),
        ("a delete fewer", 8, vec![1]),
        ("a delete more", 8, vec![3]),
        ("the first of the zeros", 10, vec![1]),
        ("the last of the zeros", 63, vec![1]),
        ("60 before the indexes", 1_088, vec![60]),
        ("62 before the indexes", 1_088, vec![62]),
        ("61 and 2^24 before the indexes", 1_088, vec![61, 0, 0, 1]),
        ("two entries at 62", 1_096, vec![62]),
        ("two entries at 2^27 - 1", 1_096, vec![0xff, 0xff, 0xff, 0x07]),
        ("indexes that fall", 1_096, vec![0, 0, 0, 8]),
        ("a first text offset of 1", 1_604, vec![1]),
        ("a first text offset of 256", 1_605, vec![1]),
        ("a text that ends before its name does", 1_606, vec![1]),
        ("a text that ends before it starts", 1_608, vec![2]),
        ("a text that ends behind the one after it", 1_608, vec![8]),
        ("a text that ends at 4,097", 1_608, vec![0x01, 0x10]),
        ("a last text that ends one too early", 1_610, vec![6]),
        ("a last text that ends one too late", 1_610, vec![8]),
        ("a last text that ends 256 too late", 1_611, vec![1]),
        ("a name longer than its text", 1_862, vec![4]),
        ("a last name longer than its text", 1_864, vec![2]),
        ("a delete without a row", 1_990, vec![0]),
        ("a status that points at another entry's delete", 1_990, vec![1]),
        ("a status that points behind the deletes", 1_990, vec![3]),
        ("a status with its low byte right", 1_991, vec![1]),
        ("a second row at a delete", 1_992, vec![1]),
        ("a delete of an index that is not held", 7_232, vec![0xfe]),
        ("a horizon of 4,097", 7_348, vec![0x01, 0x10]),
        ("17 listed streams", 7_238, vec![17]),
        ("a first listed stream at the horizon", 7_240, vec![5]),
        ("listed streams that are equal", 7_242, vec![6, 0]),
        ("a listed stream 4,096", 7_242, vec![0x00, 0x10]),
        ("a listed stream fewer than there are", 7_238, vec![1]),
        ("a listed stream more than there are", 7_238, vec![3]),
        ("an unused place of the first list", 7_270, vec![1]),
        ("an unused place of the second list", 7_307, vec![1]),
    ] {
        no_decoder(what, &[(at, bytes)]);
    }
    // The delete is this index's too.
    no_decoder("a last index of 2^27", &[(1_100, vec![0, 0, 0, 8]), (7_232, vec![0, 0, 0, 8])]);
    for (what, at, bytes) in [
        ("the other role", 0, vec![1]),
        ("a first index of 61", 1_092, vec![61]),
        ("a last index of 190", 1_096, vec![190]),
        ("a delete", 8, vec![1]),
        ("a status of 2", 1_992, vec![2]),
        ("a status of 256", 1_990, vec![0, 1]),
        ("a first horizon of 4,097", 7_234, vec![0x01, 0x10]),
        ("a second horizon of 4,097", 7_488, vec![0x01, 0x10]),
    ] {
        no_encoder(what, &[(at, bytes)]);
    }
    assert_eq!(decoder_in(&memory_of(DECODER, &decoder_pieces())[..DECODER - 1]), None);
    assert_eq!(encoder_in(&memory_of(ENCODER, &encoder_pieces())[..ENCODER - 1]), None);
}

/// Rows with names of 255 bytes and values of 2,047 as long as the sum allows, and empty ones behind them; the ends of their texts in 16 bits.
fn rows_of(count: u8, sum: u32, held: u16) -> Pieces {
    let ends: Vec<u32> = (0..=u32::from(count)).map(|row| sum.min(2302 * row)).collect();
    let names = ends.windows(2).map(|pair| (pair[1] - pair[0]).min(255) as u8).collect();
    let head = vec![2, 2, 0x00, 0x10, held as u8, (held >> 8) as u8, count, 0, 0, 0];
    let indexes = (62..62 + u32::from(count)).flat_map(|index| index.to_le_bytes()).collect();
    vec![
        (0, head),
        (10, vec![0; 54]),
        (1_088, vec![61, 0, 0, 0]),
        (1_092, indexes),
        (1_604, ends.iter().flat_map(|&end| (end as u16).to_le_bytes()).collect()),
        (1_862, names),
        (1_990, [0, 0].repeat(usize::from(count))),
        (7_232, vec![0; 256]),
        (7_488, vec![0; 256]),
    ]
}

#[test]
fn texts_do_not_go_around() {
    let forms = |count, sum, held| encoder_in(&memory_of(ENCODER, &rows_of(count, sum, held))).is_some();
    assert!(forms(1, 2302, 2334));
    assert!(forms(40, 2816, 4096));
    assert!(!forms(40, 2817, 4097), "a held size above 4,096");
    assert!(!forms(40, 65_536 + 2816, 4096), "offsets that go around to 2,816");
    assert!(!forms(30, 65_536, 30 * 32), "offsets that go around to 0");
    assert!(!forms(40, 65_536 - 40 * 32, 0), "a held size that goes around to 0");
    let mut longer = rows_of(1, 2302, 2335);
    longer[4] = (1_604, vec![0, 0, 0xff, 0x08]);
    assert!(encoder_in(&memory_of(ENCODER, &longer)).is_none(), "a value of 2,048 bytes");
}

#[test]
fn other_bytes_make_another_state() {
    let read =
        |damage: &[(usize, Vec<u8>)]| decoder_in(&memory_of(DECODER, &[decoder_pieces(), damage.to_vec()].concat())).expect("a state");
    let texts = |damage: &[(usize, Vec<u8>)]| {
        let text = |bytes: &Vec<u8>| String::from_utf8(bytes.clone()).expect("letters");
        read(damage).entries.values().map(|entry| (text(&entry.name), text(&entry.value))).collect::<Vec<_>>()
    };
    let pairs = |texts: [(&str, &str); 3]| texts.map(|(name, value)| (name.to_string(), value.to_string())).to_vec();
    assert_eq!(texts(&[(1_862, vec![3, 3, 0])]), pairs([("abc", ""), ("xyz", ""), ("", "n")]));
    assert_eq!(texts(&[(1_606, vec![2, 0, 2, 0])]), pairs([("ab", ""), ("", ""), ("c", "xyzn")]));
    assert_eq!(texts(&[(2_246, b"tuvwabc".to_vec())]), pairs([("tu", "v"), ("", "wab"), ("c", "")]));
    assert!(read(&[(64, vec![0xff, 0xff])]).finished.0[0].iter().all(|&finished| !finished));
    assert_eq!(read(&[(2, vec![0, 0])]).limit, 0, "a limit below what is held");
}

/// Whatever stands in the bytes that are not looked at.
#[test]
fn unused_bytes_make_no_difference() {
    for other in [0, 0x5a, 0xff] {
        let mut memory = vec![other; DECODER + 9];
        write(&mut memory, &decoder_pieces());
        assert_eq!(decoder_in(&memory), Some(decoder()));
        let mut memory = vec![other; ENCODER + 9];
        write(&mut memory, &encoder_pieces());
        assert_eq!(encoder_in(&memory), Some(encoder()));
    }
}

/// Versions up to 1.5.0 had rows of 16 bytes from 1,088 on: with an entry there stands its index, 62 or more.
#[test]
fn memory_of_earlier_versions() {
    let head = |held, count| vec![(0, vec![1, 2, 0x00, 0x10, held, 0, count, 0, 0, 0]), (10, vec![0; 54]), (64, vec![0xff; 1024])];
    let row = [(1_088, vec![62, 0, 0, 0, 0, 0, 1, 0, 1, 0, 0, 0, 0, 0, 0, 0]), (3_136, b"nv".to_vec())];
    for before in [0, FREE] {
        let mut memory = vec![before; DECODER];
        write(&mut memory, &[head(34, 1), row.to_vec()].concat());
        assert_eq!(decoder_in(&memory), None);
        // The entry was freed and its row stays.
        write(&mut memory, &head(0, 0));
        assert_eq!(decoder_in(&memory), None);
    }
    let numbers = [(1_088, vec![61, 0, 0, 0]), (1_604, vec![0, 0])];
    assert_eq!(decoder_in(&memory_of(DECODER, &[head(0, 0), numbers.to_vec()].concat())), Decoder::start(4096).ok());
}
