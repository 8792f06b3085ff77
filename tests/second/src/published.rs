//! Examples that others published, run through both programs: RFC 7541's that fit the base, document 01's ten, and of document 02
//! interim answers, padded integers, the order in which entries are freed, and a collect whose order counts.
use crate::library::calls::Library;
use crate::library::compare::Bench;
use crate::program::wire::{put_integer, refuse, Reader, LARGEST};
use crate::recording::{self, outcome_line, Step};

/// Integers as value, prefix width and bytes. The library has widths 6, 7 and 8; the rule is one for every width.
const INTEGERS: [(&str, u64, u32, &[u8]); 6] = [
    ("RFC 7541 C.1.1", 10, 5, &[0x0a]),
    ("RFC 7541 C.1.2", 1337, 5, &[0x1f, 0x9a, 0x0a]),
    ("RFC 7541 C.1.3", 42, 8, &[0x2a]),
    ("document 01, 2", 127, 7, &[0x7f, 0x00]),
    ("document 01, 2", 134_217_727, 7, &[0x7f, 0x80, 0xff, 0xff, 0x3f]),
    ("document 01, 3", 63, 6, &[0x3f, 0x00]),
];

/// Calls and outcomes, from a fresh pair of ends after each title.
const EXAMPLES: &str = include_str!("../published.txt");

fn integers() -> Result<usize, String> {
    for (title, value, width, bytes) in INTEGERS {
        let mut written = Vec::new();
        put_integer(&mut written, 0, width, value);
        let read = Reader::new(bytes).integer(width);
        if written != bytes || read != Ok(value) {
            return Err(format!("{title}: {value} with {width} bits is {written:02x?}, and {bytes:02x?} is {read:?}"));
        }
    }
    Ok(INTEGERS.len())
}

/// Integers of one to four groups at every width from 1 to 8, whatever the bits above the prefix are: the form written is read, and each
/// that has zero groups more is 19, or 3 where these are more than four.
fn padded() -> Result<usize, String> {
    let mut forms = 0;
    for width in 1..=8 {
        let ones = (1u64 << width) - 1;
        for value in [0, 1, 0x7f, 0x80, 0x3fff, 0x4000, 0x1f_ffff, 0x20_0000, LARGEST - ones].map(|rest| ones + rest) {
            let pattern = !ones as u8;
            let mut bytes = Vec::new();
            put_integer(&mut bytes, pattern, width, value);
            for more in 0..=4 {
                let wanted = match bytes.len() {
                    _ if more == 0 => Ok(value),
                    ..=5 => refuse(19),
                    _ => refuse(3),
                };
                let read = Reader::new(&bytes).integer(width);
                if read != wanted {
                    return Err(format!("{value} with {width} bits as {bytes:02x?} is {read:?}"));
                }
                forms += 1;
                *bytes.last_mut().expect("it has groups") |= 0x80;
                bytes.push(0);
            }
        }
    }
    Ok(forms)
}

/// Runs the examples of the text through both; how many calls they are.
fn examples(text: &str) -> Result<usize, String> {
    let mut library = Library::new();
    let mut calls = 0;
    for section in text.split("\n= ").skip(1) {
        let (title, lines) = section.split_once('\n').ok_or("a title has lines")?;
        let mut bench = Bench::new(Some(&mut library));
        for line in lines.lines().filter(|line| !line.is_empty() && !line.starts_with('#')) {
            let (call, wanted) = line.split_once(" => ").ok_or_else(|| format!("{title}: {line}"))?;
            let steps = recording::read(call)?;
            let [Step::Call(call)] = &steps[..] else {
                return Err(format!("{title}: {line}"));
            };
            let outcome = bench.call(call.clone()).map_err(|difference| format!("{title}: {line}: {}", difference.what))?;
            let given = outcome_line(call, &outcome);
            if given != wanted {
                return Err(format!("{title}: {line}: both programs give {given}"));
            }
            calls += 1;
        }
    }
    Ok(calls)
}

pub fn all() -> Result<bool, String> {
    let (integers, forms, calls) = (integers()?, padded()?, examples(EXAMPLES)?);
    println!("published: {integers} integers, {forms} forms of integers and {calls} calls of published examples agree");
    Ok(calls > 0)
}
