//! Makes a failing list of steps shorter as long as it fails.
use crate::library::calls::Library;
use crate::library::compare::{Bench, Difference};
use crate::program::call::Call;
use crate::recording::{Step, ROOM};

/// How many lists are tried at most.
const TRIES: usize = 4_000;

struct Shrinker<'a> {
    library: &'a mut Library,
    tries: usize,
}

/// The shortest list found on which library and second program differ, and how; none where this list has no difference.
pub fn shrink(steps: &[Step], library: &mut Library) -> Option<(Vec<Step>, Difference)> {
    let mut shrinker = Shrinker { library, tries: 0 };
    let mut best = shrinker.failing(steps.to_vec())?;
    loop {
        let before = best.clone();
        shrinker.drop_steps(&mut best);
        shrinker.simplify_steps(&mut best);
        if best == before || shrinker.tries >= TRIES {
            break;
        }
    }
    let difference = differs(&best, shrinker.library)?;
    Some((best, difference))
}

/// The difference that a list leads to.
pub fn differs(steps: &[Step], library: &mut Library) -> Option<Difference> {
    let mut bench = Bench::new(Some(library));
    steps.iter().find_map(|step| bench.step(step.clone()).err())
}

impl Shrinker<'_> {
    /// The list up to the step at which it fails, if it does.
    fn failing(&mut self, mut steps: Vec<Step>) -> Option<Vec<Step>> {
        self.tries += 1;
        let difference = differs(&steps, self.library)?;
        steps.truncate(difference.step + 1);
        Some(steps)
    }

    /// Leaves out runs of steps, long ones first.
    fn drop_steps(&mut self, best: &mut Vec<Step>) {
        let mut length = best.len() / 2;
        while length > 0 && self.tries < TRIES {
            let mut from = 0;
            while from < best.len() && self.tries < TRIES {
                let to = best.len().min(from + length);
                let shorter = [&best[..from], &best[to..]].concat();
                match self.failing(shorter) {
                    Some(steps) => *best = steps,
                    None => from += length,
                }
            }
            length /= 2;
        }
    }

    fn simplify_steps(&mut self, best: &mut Vec<Step>) {
        let mut place = 0;
        while place < best.len() && self.tries < TRIES {
            for simple in simpler(&best[place]) {
                let mut steps = best.clone();
                steps[place] = simple;
                if let Some(steps) = self.failing(steps) {
                    *best = steps;
                    break;
                }
            }
            place += 1;
        }
    }
}

/// Simpler steps of the same form: shorter bytes, the usual room.
fn simpler(step: &Step) -> Vec<Step> {
    use Call::*;
    let shorter = |bytes: &[u8]| -> Vec<Vec<u8>> {
        let half = bytes.len() / 2;
        let cut = [&bytes[..half], &bytes[half..], &bytes[..bytes.len().saturating_sub(1)], &bytes[bytes.len().min(1)..]];
        cut.iter().filter(|cut| cut.len() < bytes.len()).map(|cut| cut.to_vec()).collect()
    };
    let Step::Call(call) = step else {
        return Vec::new();
    };
    let mut calls: Vec<Call> = match call.clone() {
        DecoderRead { bytes } => shorter(&bytes).into_iter().map(|bytes| DecoderRead { bytes }).collect(),
        DecoderBlock { stream, part, bytes, room } => {
            shorter(&bytes).into_iter().map(|bytes| DecoderBlock { stream, part, bytes, room }).collect()
        }
        EncoderInsert { name, value, room } => {
            let names = shorter(&name).into_iter().map(|name| EncoderInsert { name, value: value.clone(), room });
            names.chain(shorter(&value).into_iter().map(|value| EncoderInsert { name: name.clone(), value, room })).collect()
        }
        EncoderBlock { stream, part, list, room } => {
            shorter(&list).into_iter().map(|list| EncoderBlock { stream, part, list, room }).collect()
        }
        EncoderAcknowledge { bytes } => shorter(&bytes).into_iter().map(|bytes| EncoderAcknowledge { bytes }).collect(),
        _ => Vec::new(),
    };
    if call.room().is_some_and(|room| room != ROOM) {
        calls.push(call.clone().with_room(ROOM));
    }
    calls.into_iter().map(Step::Call).collect()
}
