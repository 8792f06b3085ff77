//! The library's calls as a C host makes them: a byte buffer is a pointer and a length, the answer one number.
use super::kept;
use super::lent::{Lent, Region};
use crate::program::call::{Call, End};

// Declared without their arguments, since all are called through `kept`: memory as a pointer and a length, then numbers as they are, each
// input as a pointer and a length, and the output likewise.
extern "C" {
    fn kolowrotan_decoder_start();
    fn kolowrotan_decoder_read();
    fn kolowrotan_decoder_block();
    fn kolowrotan_decoder_over();
    fn kolowrotan_decoder_ended();
    fn kolowrotan_decoder_hold();
    fn kolowrotan_decoder_collect();
    fn kolowrotan_encoder_start();
    fn kolowrotan_encoder_insert();
    fn kolowrotan_encoder_delete();
    fn kolowrotan_encoder_block();
    fn kolowrotan_encoder_acknowledge();
}

/// The longest buffer that a call may lend.
pub const LENT_MOST: usize = 65_536;

/// The library with the buffers that it is lent.
pub struct Library {
    /// The memory of each end, with room in front of it for the other buffers of a call.
    homes: [Region; 2],
    memories: [Lent; 2],
    /// A region for each of the two inputs and for the output.
    apart: [Region; 3],
    /// The two inputs and the output of the last call.
    pub inputs: [Lent; 2],
    pub output: Lent,
    calls: usize,
    /// Another one with memory and buffers of its own, made when it is first asked for.
    twin: Option<Box<Library>>,
}

/// What a call said: the answer and the two told numbers; and whether it kept the registers that a C function must keep.
#[derive(Clone, Copy, Debug, PartialEq, Eq)]
pub struct Said {
    pub answer: u8,
    pub first: u64,
    pub second: u64,
    pub kept: bool,
}

impl Library {
    pub fn new() -> Library {
        let homes = [Region::new(4 * LENT_MOST), Region::new(4 * LENT_MOST)];
        let memories = [homes[0].last(0), homes[1].last(0)];
        let apart = [Region::new(LENT_MOST), Region::new(LENT_MOST), Region::new(LENT_MOST)];
        let (inputs, output) = ([apart[0].last(0), apart[1].last(0)], apart[2].last(0));
        Library { homes, memories, apart, inputs, output, calls: 0, twin: None }
    }

    pub fn memory(&self, end: End) -> &Lent {
        &self.memories[end as usize]
    }

    /// Gives an end memory that holds these bytes.
    pub fn give(&mut self, end: End, bytes: &[u8]) {
        self.memories[end as usize] = self.homes[end as usize].last(bytes.len());
        self.memories[end as usize].bytes_mut().copy_from_slice(bytes);
    }

    /// The other one, whose memory is what it was given last.
    pub fn twin(&mut self) -> &mut Library {
        self.twin.get_or_insert_with(|| Box::new(Library::new()))
    }

    /// What every byte of the output held before the last call.
    pub fn fill(&self) -> u8 {
        (self.calls * 0x4d) as u8
    }

    /// Starts counting calls anew, so that a list of calls finds its buffers where it found them before.
    pub fn restart(&mut self) {
        self.calls = 0;
    }

    /// Lends the call's buffers: each at the end of a region of its own, or one directly behind the other with the memory last, as a host
    /// may have them in one struct.
    fn lend(&mut self, call: &Call) {
        self.calls += 1;
        let (one, two) = inputs_of(call);
        let lengths = [one.len(), two.len(), call.room().unwrap_or(0)];
        let [mut first, mut second, mut output] = [0, 1, 2].map(|number| self.apart[number].last(lengths[number]));
        if self.calls % 3 == 0 {
            let home = &self.homes[call.end() as usize];
            let memory = self.memories[call.end() as usize].pointer;
            if self.calls % 2 == 0 {
                output = home.before(memory, lengths[2]);
                second = home.before(output.pointer, lengths[1]);
                first = home.before(second.pointer, lengths[0]);
            } else {
                second = home.before(memory, lengths[1]);
                first = home.before(second.pointer, lengths[0]);
                output = home.before(first.pointer, lengths[2]);
            }
        }
        first.bytes_mut().copy_from_slice(one);
        second.bytes_mut().copy_from_slice(two);
        output.bytes_mut().fill(self.fill());
        (self.inputs, self.output) = ([first, second], output);
        self.fronts(call).iter().for_each(Lent::guard);
    }

    /// The buffers that have none of the call's others in front of them.
    fn fronts(&self, call: &Call) -> Vec<Lent> {
        let buffers = [self.memories[call.end() as usize], self.inputs[0], self.inputs[1], self.output];
        let behind = |buffer: &Lent| {
            buffers.iter().any(|other| other.length > 0 && other.pointer as usize + other.length == buffer.pointer as usize)
        };
        buffers.into_iter().filter(|buffer| !behind(buffer)).collect()
    }

    /// Whether the last call, which was this one, left alone what stands in front of its buffers.
    pub fn guarded(&self, call: &Call) -> bool {
        self.fronts(call).iter().all(Lent::guarded)
    }

    /// Makes the call on the first `lend` bytes of its end's memory.
    pub fn make(&mut self, call: &Call, lend: usize) -> Said {
        use Call::*;
        self.lend(call);
        let pair = |buffer: &Lent| [buffer.pointer as u64, buffer.length as u64];
        let memory = [self.memories[call.end() as usize].pointer as u64, lend as u64];
        let [bytes, value] = [pair(&self.inputs[0]), pair(&self.inputs[1])];
        let output = pair(&self.output);
        let (function, arguments): (unsafe extern "C" fn(), Vec<[u64; 2]>) = match *call {
            DecoderStart { limit } => (kolowrotan_decoder_start, vec![memory, [limit, 0]]),
            DecoderRead { .. } => (kolowrotan_decoder_read, vec![memory, bytes]),
            DecoderBlock { stream, part, .. } => (kolowrotan_decoder_block, vec![memory, [stream, part], bytes, output]),
            DecoderOver { stream } => (kolowrotan_decoder_over, vec![memory, [stream, 0]]),
            DecoderEnded { stream } => (kolowrotan_decoder_ended, vec![memory, [stream, 0]]),
            DecoderCollect { .. } => (kolowrotan_decoder_collect, vec![memory, output]),
            DecoderHold { index } => (kolowrotan_decoder_hold, vec![memory, [index, 0]]),
            EncoderStart { limit } => (kolowrotan_encoder_start, vec![memory, [limit, 0]]),
            EncoderInsert { .. } => (kolowrotan_encoder_insert, vec![memory, bytes, value, output]),
            EncoderDelete { index, .. } => (kolowrotan_encoder_delete, vec![memory, [index, output[0]], [output[1], 0]]),
            EncoderBlock { stream, part, .. } => (kolowrotan_encoder_block, vec![memory, [stream, part], bytes, output]),
            EncoderAcknowledge { .. } => (kolowrotan_encoder_acknowledge, vec![memory, bytes]),
        };
        // The buffers lie in this object's regions and do not overlap.
        let (number, kept) = unsafe { kept::call(function as *const (), arguments.as_flattened()) };
        Said { answer: number as u8, first: number >> 8 & 0xffff_ffff, second: number >> 40, kept }
    }
}

/// The bytes that a call lends to be read: at most two buffers.
pub fn inputs_of(call: &Call) -> (&[u8], &[u8]) {
    use Call::*;
    match call {
        DecoderRead { bytes } | DecoderBlock { bytes, .. } | EncoderAcknowledge { bytes } => (bytes, &[]),
        EncoderInsert { name, value, .. } => (name, value),
        EncoderBlock { list, .. } => (list, &[]),
        _ => (&[], &[]),
    }
}
