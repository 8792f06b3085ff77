//! Document 02's bound on a block: at most the list's bytes plus two for each field, and never more than a block may have. At every block
//! that is written, or that lacked room alone, a second encoder in the same state is lent just that much, and must write the same.
use super::calls::{Library, Said};
use super::compare::same;
use crate::program::blocks::BLOCK_MOST;
use crate::program::call::{Call, End, Outcome};
use crate::program::fields::fields_of;

/// So many bytes more than the list may be written for each field.
const PER_FIELD: usize = 2;
/// The fewest bytes of a field in a list: the flag and two lengths.
const FIELD_LEAST: usize = 3;
/// One field of 127 and 127 bytes that packing does not shorten: its list and its block.
const CLOSED: (usize, usize) = (257, 259);

/// How near to its bound a block came.
#[derive(Clone, Copy, Debug, PartialEq, Eq)]
pub enum Reached {
    No,
    /// It has as many bytes as the list and two for each field, of which there are some.
    Bound,
    /// The same, with document 02's numbers.
    Closed,
    /// It has the most bytes that a block may have, and the bound would be above that.
    Most,
}

/// The bound for a list of so many bytes and fields.
fn bound(length: usize, fields: usize) -> usize {
    BLOCK_MOST.min(length + PER_FIELD * fields)
}

fn reached(length: usize, fields: usize, written: usize) -> Reached {
    match length + PER_FIELD * fields {
        _ if fields == 0 => Reached::No,
        bound if (length, bound) == CLOSED && written == bound => Reached::Closed,
        bound if written == bound => Reached::Bound,
        bound if written == BLOCK_MOST && bound > BLOCK_MOST => Reached::Most,
        _ => Reached::No,
    }
}

/// An encoder's block call whose outcome with enough room is this: what is wrong, or how near it came to its bound. `before` is the
/// memory before the call, of which so many bytes are lent, and `after` the memory that a done call leaves.
pub fn check(twin: &mut Library, call: &Call, enough: &Outcome, before: &[u8], lend: usize, after: &[u8]) -> Result<Reached, String> {
    let Call::EncoderBlock { list, .. } = call else { return Ok(Reached::No) };
    let fields = fields_of(list).map_err(|_| "a block was written of what is no list".to_string())?.len();
    let (most, written) = (bound(list.len(), fields), enough.output.len());
    if written > most {
        return Err(format!("a list of {} bytes and {fields} fields has a block of {written} bytes", list.len()));
    }
    let reached = reached(list.len(), fields, written);
    let done = Said { answer: 0, first: written as u64, second: 0, kept: true };
    let refused = Said { answer: 12, first: 0, second: 0, kept: true };
    let mut lends = vec![(most, done), (bound(list.len(), list.len() / FIELD_LEAST), done)];
    if reached != Reached::No {
        lends.push((most - 1, refused));
    }
    for (room, wanted) in lends {
        twin.give(End::Encoder, before);
        let said = twin.make(&call.clone().with_room(room), lend);
        let with_room = |what: String| format!("with {room} bytes of room for a block of {written}: {what}");
        if said != wanted {
            return Err(with_room(format!("the library says {} {} {}", said.answer, said.first, said.second)));
        }
        let (output, memory) = if said.answer == 0 { (&enough.output[..], after) } else { (&[][..], before) };
        let (bytes, rest) = twin.output.bytes().split_at(output.len());
        same("the output", bytes, output).map_err(with_room)?;
        same("the rest of the output", rest, &vec![twin.fill(); rest.len()]).map_err(with_room)?;
        same("the memory", twin.memory(End::Encoder).bytes(), memory).map_err(with_room)?;
    }
    Ok(reached)
}
