//! The calls of both ends, their outcomes, and the second program as a whole.
use super::decoder::Decoder;
use super::encoder::Encoder;
use super::tables::Done;
use super::wire::{refuse, Answer};

#[derive(Clone, Copy, Debug, PartialEq, Eq)]
pub enum End {
    Decoder,
    Encoder,
}

#[derive(Clone, Debug, PartialEq, Eq)]
pub enum Call {
    DecoderStart { limit: u64 },
    DecoderRead { bytes: Vec<u8> },
    DecoderBlock { stream: u64, part: u64, bytes: Vec<u8>, room: usize },
    DecoderOver { stream: u64 },
    DecoderEnded { stream: u64 },
    DecoderCollect { room: usize },
    DecoderHold { index: u64 },
    EncoderStart { limit: u64 },
    EncoderInsert { name: Vec<u8>, value: Vec<u8>, room: usize },
    EncoderDelete { index: u64, room: usize },
    EncoderBlock { stream: u64, part: u64, list: Vec<u8>, room: usize },
    EncoderAcknowledge { bytes: Vec<u8> },
}

/// What a call says: its answer, the two told numbers, and the bytes written.
#[derive(Clone, Debug, PartialEq, Eq)]
pub struct Outcome {
    pub answer: u8,
    pub first: u64,
    pub second: u64,
    pub output: Vec<u8>,
}

impl From<Answer<Done>> for Outcome {
    fn from(answer: Answer<Done>) -> Outcome {
        match answer {
            Ok(done) => Outcome { answer: 0, first: done.first, second: done.second, output: done.output },
            Err(refusal) => Outcome { answer: refusal.answer, first: refusal.told, second: 0, output: Vec::new() },
        }
    }
}

impl Outcome {
    pub fn done(&self) -> bool {
        self.answer == 0
    }
}

impl Call {
    pub fn end(&self) -> End {
        use Call::*;
        match self {
            DecoderStart { .. } | DecoderRead { .. } | DecoderBlock { .. } => End::Decoder,
            DecoderOver { .. } | DecoderEnded { .. } | DecoderCollect { .. } | DecoderHold { .. } => End::Decoder,
            EncoderStart { .. } | EncoderInsert { .. } | EncoderDelete { .. } => End::Encoder,
            EncoderBlock { .. } | EncoderAcknowledge { .. } => End::Encoder,
        }
    }

    /// How many bytes of output are lent; none where the call has no output.
    pub fn room(&self) -> Option<usize> {
        use Call::*;
        match self {
            DecoderBlock { room, .. } | DecoderCollect { room } | EncoderInsert { room, .. } => Some(*room),
            EncoderDelete { room, .. } | EncoderBlock { room, .. } => Some(*room),
            _ => None,
        }
    }

    /// The same call with other room.
    pub fn with_room(mut self, new: usize) -> Call {
        use Call::*;
        match &mut self {
            DecoderBlock { room, .. } | DecoderCollect { room } | EncoderInsert { room, .. } => *room = new,
            EncoderDelete { room, .. } | EncoderBlock { room, .. } => *room = new,
            _ => (),
        }
        self
    }
}

/// Both ends of the second program. An end has no state until a start is done, or where its memory forms none.
#[derive(Clone, Debug, Default)]
pub struct Second {
    pub decoder: Option<Decoder>,
    pub encoder: Option<Encoder>,
}

impl Second {
    /// Makes a call. `enough` says whether the lent memory has the length that docs/STATE.md fixes.
    pub fn make(&mut self, call: &Call, enough: bool) -> Outcome {
        Outcome::from(match call.end() {
            End::Decoder => self.at_decoder(call, enough),
            End::Encoder => self.at_encoder(call, enough),
        })
    }

    fn at_decoder(&mut self, call: &Call, enough: bool) -> Answer<Done> {
        if let Call::DecoderStart { limit } = call {
            let fresh = Decoder::start(*limit)?;
            return started(&mut self.decoder, fresh, enough);
        }
        let Some(decoder) = self.decoder.as_mut().filter(|_| enough) else {
            return refuse(17);
        };
        match call {
            Call::DecoderRead { bytes } => decoder.read(bytes),
            Call::DecoderBlock { stream, part, bytes, room } => decoder.block(*stream, *part, bytes, *room),
            Call::DecoderOver { stream } => decoder.over(*stream),
            Call::DecoderEnded { stream } => decoder.ended(*stream),
            Call::DecoderCollect { room } => decoder.collect(*room),
            Call::DecoderHold { index } => decoder.hold(*index),
            other => unreachable!("no call of the decoder: {other:?}"),
        }
    }

    fn at_encoder(&mut self, call: &Call, enough: bool) -> Answer<Done> {
        if let Call::EncoderStart { limit } = call {
            let fresh = Encoder::start(*limit)?;
            return started(&mut self.encoder, fresh, enough);
        }
        let Some(encoder) = self.encoder.as_mut().filter(|_| enough) else {
            return refuse(17);
        };
        match call {
            Call::EncoderInsert { name, value, room } => encoder.insert(name, value, *room),
            Call::EncoderDelete { index, room } => encoder.delete(*index, *room),
            Call::EncoderBlock { stream, part, list, room } => encoder.block(*stream, *part, list, *room),
            Call::EncoderAcknowledge { bytes } => encoder.acknowledge(bytes),
            other => unreachable!("no call of the encoder: {other:?}"),
        }
    }
}

/// A start: after 7, 12 where the memory is too short.
fn started<T>(state: &mut Option<T>, fresh: T, enough: bool) -> Answer<Done> {
    if !enough {
        return refuse(12);
    }
    *state = Some(fresh);
    Ok(Done::default())
}
