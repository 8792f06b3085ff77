//! Deletions at the decoder by calls and answers, kept apart from the second program's own state: the deletes that were read, in that
//! order, and which parts are finished. Memory that somebody else wrote is taken as it stands. Every collect is held to document 02: it
//! frees the ready entry whose delete came first, so one that is ready is acknowledged within as many collects answered done as deletes
//! stand up to its own.
use crate::program::call::{Call, Outcome};
use crate::program::decoder::Decoder;
use crate::program::instructions::{self, Instruction, StreamList, STREAMS};
use crate::program::tables::Parts;

/// An entry that is ready is acknowledged within so many collects answered done, whatever its place.
const COLLECTS_MOST: usize = 128;
/// The answer where memory forms no state.
const NO_STATE: u8 = 17;

/// An entry that was found ready: the collects answered done since then, and within how many it must be acknowledged.
struct Ready {
    collects: usize,
    within: usize,
}

/// A delete that was read and whose entry is not freed.
struct Deletion {
    index: u64,
    lists: [StreamList; 2],
    ready: Option<Ready>,
}

fn acknowledgement(index: u64) -> Vec<u8> {
    instructions::written(&Instruction::Acknowledge { index })
}

pub struct Deletions {
    /// In the order in which they were read.
    read: Vec<Deletion>,
    finished: Parts,
}

/// What a collect came upon.
#[derive(Clone, Copy, Debug, PartialEq, Eq)]
pub enum Collected {
    Nothing,
    /// An entry was freed, so many collects answered done after it was ready; whether one of lower index is ready and stays.
    Freed {
        collects: usize,
        lower: bool,
    },
    /// There was no room for the first acknowledgement; whether there was for one behind it.
    NoRoom {
        behind: bool,
    },
}

impl Deletions {
    /// Those that memory holds which forms this state.
    pub fn of(state: Option<&Decoder>) -> Deletions {
        let mut deletions = Deletions { read: Vec::new(), finished: Parts::none() };
        if let Some(decoder) = state {
            decoder.deletes.iter().for_each(|delete| deletions.deleted(delete.index, delete.lists.clone()));
            deletions.finished.clone_from(&decoder.finished);
        }
        deletions
    }

    fn deleted(&mut self, index: u64, lists: [StreamList; 2]) {
        self.read.push(Deletion { index, lists, ready: None });
    }

    /// A call got its answer; what it shows, where it is a collect, or which claim it breaks.
    pub fn happened(&mut self, call: &Call, outcome: &Outcome) -> Result<Collected, String> {
        match call {
            Call::DecoderCollect { room } => return self.collected(outcome, *room),
            _ if !outcome.done() => (),
            Call::DecoderStart { .. } => *self = Deletions::of(None),
            Call::DecoderRead { bytes } => {
                if let Ok((Instruction::Delete { index, lists }, _)) = instructions::read_for_decoder(bytes) {
                    self.deleted(index, lists);
                }
            }
            // After a trailer no block of its stream is taken, after another one any is.
            Call::DecoderBlock { stream, part: 1, .. } | Call::DecoderEnded { stream } => {
                self.finished.add(0, *stream);
                self.finished.add(1, *stream);
            }
            Call::DecoderOver { stream } => self.finished.add(0, *stream),
            _ => (),
        }
        Ok(Collected::Nothing)
    }

    /// Whether a part takes blocks.
    pub fn takes(&self, stream: u64, part: u64) -> bool {
        !self.finished.has(part as usize, stream)
    }

    /// The indexes under deletion.
    pub fn indexes(&self) -> Vec<u64> {
        self.read.iter().map(|deletion| deletion.index).collect()
    }

    /// How many parts hold the deletion of an index back, and the lowest stream having one.
    pub fn holding(&self, index: u64) -> (u64, u64) {
        let open = self.read.iter().filter(|deletion| deletion.index == index).flat_map(|deletion| self.open(&deletion.lists));
        open.fold((0, STREAMS), |(count, lowest), stream| (count + 1, lowest.min(stream)))
    }

    /// The streams with a part that a deletion names and in which a block could still be accepted.
    fn open<'a>(&'a self, lists: &'a [StreamList; 2]) -> impl Iterator<Item = u64> + 'a {
        let of_part = |part: usize| lists[part].named().filter(move |&stream| self.takes(stream, part as u64));
        of_part(0).chain(of_part(1))
    }

    /// Finds out which entries have become ready. Only a collect changes places, so it is enough to look before each.
    fn look(&mut self) {
        for place in 0..self.read.len() {
            let deletion = &self.read[place];
            if deletion.ready.is_none() && self.open(&deletion.lists).next().is_none() {
                self.read[place].ready = Some(Ready { collects: 0, within: place + 1 });
            }
        }
    }

    /// Holds a collect to "frees one exactly when one is ready", to which one it is, and to the bound.
    fn collected(&mut self, outcome: &Outcome, room: usize) -> Result<Collected, String> {
        if outcome.answer == NO_STATE {
            return Ok(Collected::Nothing);
        }
        self.look();
        if outcome.done() {
            self.counted(&outcome.output)?;
        }
        let mut ready = self.read.iter().enumerate().filter(|(_, deletion)| deletion.ready.is_some());
        let Some((place, first)) = ready.next() else {
            let nothing = outcome.done() && outcome.output.is_empty();
            return nothing.then_some(Collected::Nothing).ok_or_else(|| "a collect does something although no entry is ready".to_string());
        };
        let wanted = acknowledgement(first.index);
        if wanted.len() > room {
            let behind = ready.any(|(_, deletion)| acknowledgement(deletion.index).len() <= room);
            let refused = (outcome.answer == 12).then_some(Collected::NoRoom { behind });
            return refused.ok_or_else(|| "a collect without room for the first acknowledgement is not answered 12".to_string());
        }
        if outcome.output != wanted {
            return Err(format!("a collect does not free the entry {}, which is ready and whose delete came first", first.index));
        }
        let lower = ready.any(|(_, deletion)| deletion.index < first.index);
        let collects = first.ready.as_ref().map_or(0, |ready| ready.collects);
        self.read.remove(place);
        Ok(Collected::Freed { collects, lower })
    }

    /// The bound, whichever entry a collect answered done has freed: the others that are ready have waited for one collect more.
    fn counted(&mut self, output: &[u8]) -> Result<(), String> {
        for Deletion { index, ready, .. } in &mut self.read {
            let Some(ready) = ready else { continue };
            ready.collects += 1;
            let most = ready.within.min(COLLECTS_MOST);
            if ready.collects >= most && acknowledgement(*index) != output {
                return Err(format!("the entry {index} is ready and not acknowledged within {most} collects"));
            }
        }
        Ok(())
    }
}

/// What the collects of a run came upon.
#[derive(Clone, Debug, Default)]
pub struct Freeing {
    /// Entries freed, and those of them beside which one of lower index was ready.
    freed: u64,
    not_lowest: u64,
    /// Collects answered 12 where there was room for another ready entry's acknowledgement.
    passed_over: u64,
    /// The most collects answered done within which an entry was acknowledged from when it was ready.
    longest: usize,
}

/// At least one in so many calls must free an entry beside a ready one of lower index, and one be answered 12 where another would have room.
const NOT_LOWEST_IN: u64 = 200;
const PASSED_OVER_IN: u64 = 20_000;

impl Freeing {
    pub fn count(&mut self, collected: Collected) {
        match collected {
            Collected::Nothing => (),
            Collected::Freed { collects, lower } => {
                self.freed += 1;
                self.not_lowest += u64::from(lower);
                self.longest = self.longest.max(collects);
            }
            Collected::NoRoom { behind } => self.passed_over += u64::from(behind),
        }
    }

    pub fn add(&mut self, other: &Freeing) {
        self.freed += other.freed;
        self.not_lowest += other.not_lowest;
        self.passed_over += other.passed_over;
        self.longest = self.longest.max(other.longest);
    }

    pub fn line(&self) -> String {
        let Freeing { freed, not_lowest, passed_over, longest } = self;
        format!(
            "entries freed: {freed}, of them beside a ready one of lower index: {not_lowest}, after at most {longest} collects; \
             answered 12 where another acknowledgement had room: {passed_over}"
        )
    }

    pub fn missed(&self, calls: u64) -> Vec<String> {
        let few = [
            (self.not_lowest * NOT_LOWEST_IN < calls, "entries freed beside a ready one of lower index"),
            (self.passed_over * PASSED_OVER_IN < calls, "collects answered 12 where another acknowledgement had room"),
            (self.longest < COLLECTS_MOST, "collects between a ready entry and its acknowledgement"),
        ];
        few.iter().filter(|(few, _)| *few).map(|(_, what)| format!("too few {what}")).collect()
    }
}
