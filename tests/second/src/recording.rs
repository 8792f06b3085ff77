//! Recordings: a call to a line, and the outcome that `replay` prints for it.
//!
//! A comment that begins with `#!` is a note for the mixed runs, which do more with memory than a host may: `#! memory END LENGTH SEED`
//! gives an end so many bytes, filled from the seed (0: zeros); `#! damage END AT BYTES` overwrites some of them; `#! lend END LENGTH`
//! lends only the first so many from then on; `#! pair CALL and CALL` tries two calls of the decoder in either order on copies of its memory.
use std::fmt::Write;

use crate::program::call::{Call, End, Outcome};

/// How many bytes of output are lent where a line does not say.
pub const ROOM: usize = 65_536;
/// The most bytes that can stand in one word.
pub const BYTES_MOST: usize = 20_000;
const LINE_MOST: usize = 65_535;

/// A line of a recording: a call or a note.
#[derive(Clone, Debug, PartialEq, Eq)]
pub enum Step {
    Call(Call),
    Memory { end: End, length: usize, seed: u64 },
    Damage { end: End, at: usize, bytes: Vec<u8> },
    Lend { end: End, length: usize },
    Pair { one: Call, other: Call },
}

fn hex(bytes: &[u8]) -> String {
    if bytes.is_empty() {
        return "-".to_string();
    }
    let mut text = String::new();
    bytes.iter().for_each(|byte| write!(text, "{byte:02x}").expect("text grows"));
    text
}

fn end_name(end: End) -> &'static str {
    match end {
        End::Decoder => "decoder",
        End::Encoder => "encoder",
    }
}

/// The line of a step.
pub fn line_of(step: &Step) -> String {
    match step {
        Step::Call(call) => call_line(call),
        Step::Memory { end, length, seed } => format!("#! memory {} {length} {seed}", end_name(*end)),
        Step::Damage { end, at, bytes } => format!("#! damage {} {at} {}", end_name(*end), hex(bytes)),
        Step::Lend { end, length } => format!("#! lend {} {length}", end_name(*end)),
        Step::Pair { one, other } => format!("#! pair {} and {}", call_line(one), call_line(other)),
    }
}

/// The line of a call.
pub fn call_line(call: &Call) -> String {
    use Call::*;
    let mut line = match call {
        DecoderStart { limit } => format!("decoder start {limit}"),
        DecoderRead { bytes } => format!("decoder read {}", hex(bytes)),
        DecoderBlock { stream, part, bytes, .. } => format!("decoder block {stream} {part} {}", hex(bytes)),
        DecoderOver { stream } => format!("decoder over {stream}"),
        DecoderEnded { stream } => format!("decoder ended {stream}"),
        DecoderCollect { .. } => "decoder collect".to_string(),
        DecoderHold { index } => format!("decoder hold {index}"),
        EncoderStart { limit } => format!("encoder start {limit}"),
        EncoderInsert { name, value, .. } => format!("encoder insert {} {}", hex(name), hex(value)),
        EncoderDelete { index, .. } => format!("encoder delete {index}"),
        EncoderBlock { stream, part, list, .. } => format!("encoder block {stream} {part} {}", hex(list)),
        EncoderAcknowledge { bytes } => format!("encoder acknowledge {}", hex(bytes)),
    };
    if let Some(room) = call.room().filter(|&room| room != ROOM) {
        write!(line, " {room}").expect("text grows");
    }
    line
}

/// The line that `replay` prints for a call with this outcome.
pub fn outcome_line(call: &Call, outcome: &Outcome) -> String {
    let numbers = format!("{} {} {}", outcome.answer, outcome.first, outcome.second);
    if outcome.done() && call.room().is_some() {
        return format!("{numbers} {}", hex(&outcome.output));
    }
    numbers
}

/// The steps of a recording; a bad line is an error that names its number.
pub fn read(text: &str) -> Result<Vec<Step>, String> {
    let mut steps = Vec::new();
    for (number, line) in text.lines().enumerate() {
        let words: Vec<&str> = line.split(' ').filter(|word| !word.is_empty()).collect();
        let note = line.starts_with("#!");
        if words.is_empty() || (line.starts_with('#') && !note) {
            continue;
        }
        let step = if note { note_of(&words[1..]) } else { call_of(&words).map(Step::Call) };
        match step.filter(|_| line.len() <= LINE_MOST) {
            Some(step) => steps.push(step),
            None => return Err(format!("line {} is a bad one: {line:.80}", number + 1)),
        }
    }
    Ok(steps)
}

fn bytes(word: &str) -> Option<Vec<u8>> {
    if word == "-" {
        return Some(Vec::new());
    }
    let digits: Option<Vec<u32>> = word.chars().map(|c| c.to_digit(16)).collect();
    let digits = digits.filter(|digits| digits.len() % 2 == 0 && digits.len() <= 2 * BYTES_MOST)?;
    Some(digits.chunks(2).map(|pair| (pair[0] * 16 + pair[1]) as u8).collect())
}

fn number(word: &str) -> Option<u64> {
    word.chars().all(|c| c.is_ascii_digit()).then(|| word.parse().ok())?
}

fn end(word: &str) -> Option<End> {
    match word {
        "decoder" => Some(End::Decoder),
        "encoder" => Some(End::Encoder),
        _ => None,
    }
}

fn note_of(words: &[&str]) -> Option<Step> {
    let size = |word| number(word).filter(|&size| size <= ROOM as u64).map(|size| size as usize);
    Some(match *words {
        ["memory", whose, length, seed] => Step::Memory { end: end(whose)?, length: size(length)?, seed: number(seed)? },
        ["damage", whose, at, what] => Step::Damage { end: end(whose)?, at: size(at)?, bytes: bytes(what)? },
        ["lend", whose, length] => Step::Lend { end: end(whose)?, length: size(length)? },
        ["pair", ref calls @ ..] => {
            let and = calls.iter().position(|&word| word == "and")?;
            let pair = (call_of(&calls[..and])?, call_of(&calls[and + 1..])?);
            let (one, other) = Some(pair).filter(|(one, other)| one.end() == End::Decoder && other.end() == End::Decoder)?;
            Step::Pair { one, other }
        }
        _ => return None,
    })
}

fn call_of(words: &[&str]) -> Option<Call> {
    use Call::*;
    // A call with an output may have its room as a last word.
    let (call, rest) = match *words {
        ["decoder", "start", limit] => (DecoderStart { limit: number(limit)? }, &[][..]),
        ["decoder", "read", what] => (DecoderRead { bytes: bytes(what)? }, &[][..]),
        ["decoder", "block", stream, part, what, ref rest @ ..] => {
            (DecoderBlock { stream: number(stream)?, part: number(part)?, bytes: bytes(what)?, room: ROOM }, rest)
        }
        ["decoder", "over", stream] => (DecoderOver { stream: number(stream)? }, &[][..]),
        ["decoder", "ended", stream] => (DecoderEnded { stream: number(stream)? }, &[][..]),
        ["decoder", "collect", ref rest @ ..] => (DecoderCollect { room: ROOM }, rest),
        ["decoder", "hold", index] => (DecoderHold { index: number(index)? }, &[][..]),
        ["encoder", "start", limit] => (EncoderStart { limit: number(limit)? }, &[][..]),
        ["encoder", "insert", name, value, ref rest @ ..] => (EncoderInsert { name: bytes(name)?, value: bytes(value)?, room: ROOM }, rest),
        ["encoder", "delete", index, ref rest @ ..] => (EncoderDelete { index: number(index)?, room: ROOM }, rest),
        ["encoder", "block", stream, part, list, ref rest @ ..] => {
            (EncoderBlock { stream: number(stream)?, part: number(part)?, list: bytes(list)?, room: ROOM }, rest)
        }
        ["encoder", "acknowledge", what] => (EncoderAcknowledge { bytes: bytes(what)? }, &[][..]),
        _ => return None,
    };
    match *rest {
        [] => Some(call),
        [room] => number(room).filter(|&room| room <= ROOM as u64).map(|room| call.with_room(room as usize)),
        _ => None,
    }
}
