//! One step at a time through the second program and, where it is lent, the library; everything that a call may show is compared.
use super::calls::{inputs_of, Library};
use super::deletions::Deletions;
use super::layout::{self, DECODER_BYTES, ENCODER_BYTES};
use super::order;
use super::room;
use super::tally::Tally;
use crate::program::blocks::BLOCK_MOST;
use crate::program::call::{Call, End, Outcome, Second};
use crate::random::Random;
use crate::recording::Step;

/// Memory is read back into a state at every so many calls. (What it must hold byte by byte is compared at every call.)
const READ_BACK_EVERY: usize = 64;
/// The memory of an end where no note says otherwise.
const MEMORY: usize = 65_536;

/// What went wrong, and at which step.
#[derive(Clone, Debug)]
pub struct Difference {
    pub step: usize,
    pub what: String,
}

pub type Ran<T> = Result<T, Difference>;

/// An end's memory as it must be, and how much of it is lent.
struct Side {
    expected: Vec<u8>,
    lend: usize,
}

impl Side {
    fn new() -> Side {
        Side { expected: vec![0; MEMORY], lend: MEMORY }
    }
}

/// The second program, the library if there is one, and what was done so far.
pub struct Bench<'a> {
    pub second: Second,
    sides: [Side; 2],
    library: Option<&'a mut Library>,
    /// The encoder's memory before the last block that was written.
    before: Vec<u8>,
    /// What calls and answers say of the decoder's deletions.
    pub deletions: Deletions,
    pub steps: Vec<Step>,
    pub calls: usize,
    pub tally: Tally,
}

fn length_of(end: End) -> usize {
    match end {
        End::Decoder => DECODER_BYTES,
        End::Encoder => ENCODER_BYTES,
    }
}

impl<'a> Bench<'a> {
    pub fn new(library: Option<&'a mut Library>) -> Bench<'a> {
        let sides = [Side::new(), Side::new()];
        let (second, deletions, tally) = (Second::default(), Deletions::of(None), Tally::default());
        let mut bench = Bench { second, sides, library, before: Vec::new(), deletions, steps: Vec::new(), calls: 0, tally };
        if let Some(library) = &mut bench.library {
            library.restart();
        }
        bench.give(End::Decoder);
        bench.give(End::Encoder);
        bench
    }

    /// The memory of an end, as it must be.
    pub fn memory(&self, end: End) -> &[u8] {
        &self.sides[end as usize].expected
    }

    /// Gives the library the memory that is expected, and the second program the state that it forms.
    fn give(&mut self, end: End) {
        let side = &self.sides[end as usize];
        if let Some(library) = &mut self.library {
            library.give(end, &side.expected);
        }
        match end {
            End::Decoder => {
                self.second.decoder = layout::decoder_in(&side.expected);
                self.deletions = Deletions::of(self.second.decoder.as_ref());
            }
            End::Encoder => self.second.encoder = layout::encoder_in(&side.expected),
        }
    }

    /// Does a step that is no call. Without a library there is no memory, and notes are passed over as `replay` does.
    pub fn note(&mut self, step: Step) {
        if self.library.is_none() {
            return;
        }
        match &step {
            Step::Call(_) | Step::Pair { .. } => unreachable!("calls are made, not noted"),
            Step::Memory { end, length, seed } => {
                let expected = if *seed == 0 { vec![0; *length] } else { Random::new(*seed).bytes(*length) };
                self.sides[*end as usize] = Side { expected, lend: *length };
                self.give(*end);
            }
            Step::Damage { end, at, bytes } => {
                let expected = &mut self.sides[*end as usize].expected;
                let to = expected.len().min(at + bytes.len());
                let from = to.min(*at);
                expected[from..to].copy_from_slice(&bytes[..to - from]);
                self.give(*end);
            }
            Step::Lend { end, length } => {
                let side = &mut self.sides[*end as usize];
                side.lend = side.expected.len().min(*length);
            }
        }
        self.steps.push(step);
    }

    /// Makes a call and compares.
    pub fn call(&mut self, call: Call) -> Ran<Outcome> {
        let end = call.end();
        let enough = self.sides[end as usize].lend >= length_of(end);
        let outcome = self.second.make(&call, enough);
        self.calls += 1;
        self.tally.count(&call, &outcome, &self.second);
        let compared = match self.library {
            Some(_) => self.compare(&call, &outcome),
            None => Ok(()),
        };
        let claimed = compared.and_then(|()| self.deletions.happened(&call, &outcome));
        self.steps.push(Step::Call(call));
        match claimed {
            Ok(collected) => self.tally.collected(collected),
            Err(what) => return self.broken(what),
        }
        Ok(outcome)
    }

    /// Tries two calls of the decoder in either order on copies of its memory, which itself stays as it is. Without a library there is none.
    pub fn pair(&mut self, one: Call, other: Call) -> Ran<()> {
        let Some(library) = &mut self.library else { return Ok(()) };
        let side = &self.sides[End::Decoder as usize];
        let tried = order::check(library.twin(), &side.expected, side.lend, &one, &other);
        self.steps.push(Step::Pair { one, other });
        match tried {
            Ok(tried) => self.tally.tried(tried),
            Err(what) => return self.broken(what),
        }
        Ok(())
    }

    /// Any step.
    pub fn step(&mut self, step: Step) -> Ran<()> {
        match step {
            Step::Call(call) => self.call(call).map(|_| ()),
            Step::Pair { one, other } => self.pair(one, other),
            note => {
                self.note(note);
                Ok(())
            }
        }
    }

    /// A claim that the last step breaks.
    pub fn broken<T>(&self, what: String) -> Ran<T> {
        Err(Difference { step: self.steps.len().saturating_sub(1), what })
    }

    fn compare(&mut self, call: &Call, outcome: &Outcome) -> Result<(), String> {
        let end = call.end();
        let side = &mut self.sides[end as usize];
        let library = self.library.as_mut().expect("asked for with a library");
        // 12 is judged last: then the list is right, and its block too.
        let block = matches!(call, Call::EncoderBlock { .. }) && matches!(outcome.answer, 0 | 12);
        if block {
            self.before.clone_from(&side.expected);
        }
        let said = library.make(call, side.lend);
        if (said.answer, said.first, said.second) != (outcome.answer, outcome.first, outcome.second) {
            return Err(format!(
                "the library says {} {} {}, the second program {} {} {}",
                said.answer, said.first, said.second, outcome.answer, outcome.first, outcome.second
            ));
        }
        if !said.kept {
            return Err("the library changes a register that a C function must keep".to_string());
        }
        if outcome.done() {
            match end {
                End::Decoder => layout::lay_decoder(&mut side.expected, self.second.decoder.as_ref().expect("done")),
                End::Encoder => layout::lay_encoder(&mut side.expected, self.second.encoder.as_ref().expect("done")),
            }
        }
        self.buffers(call, outcome)?;
        if block {
            self.room(call, outcome)?;
        }
        if self.calls % READ_BACK_EVERY == 0 {
            self.read_back(end)?;
        }
        Ok(())
    }

    /// Document 02's bound on a block that was written, or for which there was too little room.
    fn room(&mut self, call: &Call, outcome: &Outcome) -> Result<(), String> {
        let side = &self.sides[End::Encoder as usize];
        let twin = self.library.as_mut().expect("asked for with a library").twin();
        let reached = if outcome.done() {
            room::check(twin, call, outcome, &self.before, side.lend, &side.expected)?
        } else {
            let mut second = self.second.clone();
            let enough = second.make(&call.clone().with_room(BLOCK_MOST), true);
            let mut after = self.before.clone();
            layout::lay_encoder(&mut after, second.encoder.as_ref().expect("it has a state"));
            room::check(twin, call, &enough, &self.before, side.lend, &after)?
        };
        self.tally.reached(reached);
        Ok(())
    }

    /// Every lent byte: the output as far as it was told, and all else as it must be.
    fn buffers(&self, call: &Call, outcome: &Outcome) -> Result<(), String> {
        let library = self.library.as_ref().expect("asked for with a library");
        let fill = library.fill();
        let (written, rest) = library.output.bytes().split_at(outcome.output.len());
        same("the output", written, &outcome.output)?;
        if rest.iter().fold(0, |any, byte| any | (byte ^ fill)) != 0 {
            return Err("the output was written past what was told".to_string());
        }
        let (one, two) = inputs_of(call);
        same("the input", library.inputs[0].bytes(), one)?;
        same("the second input", library.inputs[1].bytes(), two)?;
        same("the memory", library.memory(call.end()).bytes(), self.memory(call.end()))?;
        if !library.guarded(call) {
            return Err("bytes in front of a lent buffer were written".to_string());
        }
        Ok(())
    }

    /// The state that the library's memory forms is the second program's.
    pub fn read_back(&mut self, end: End) -> Result<(), String> {
        let library = self.library.as_mut().expect("asked for with a library");
        let memory = library.memory(end).bytes();
        let same = match end {
            End::Decoder => layout::decoder_in(memory) == self.second.decoder,
            End::Encoder => match (layout::encoder_in(memory), &self.second.encoder) {
                (Some(one), Some(other)) => layout::same_encoder(&one, other),
                (one, other) => one.is_none() && other.is_none(),
            },
        };
        same.then_some(()).ok_or_else(|| format!("the memory of the {end:?} does not form the second program's state"))
    }
}

/// Says at which byte two buffers of one length differ.
pub(super) fn same(what: &str, library: &[u8], second: &[u8]) -> Result<(), String> {
    if library == second {
        return Ok(());
    }
    let at = library.iter().zip(second).position(|(one, other)| one != other).unwrap_or(0);
    Err(format!("{what} differs at byte {at}: {:02x} in the library, {:02x} in the second program", library[at], second[at]))
}
