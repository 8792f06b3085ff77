//! The three instructions: insert, delete with its two stream lists, and Delete-Ack.
use super::statics;
use super::wire::{put_integer, put_string, refuse, refuse_if, Answer, Reader, NAME_MOST, VALUE_MOST};

/// One more than the highest stream number.
pub const STREAMS: u64 = 4096;
/// The most streams that a list may name one by one.
const LISTED_MOST: u64 = 16;

/// How a name is given: by an index of either table, or as a string.
#[derive(Clone, Debug, PartialEq, Eq)]
pub enum Name {
    Index(u64),
    Text(Vec<u8>),
}

/// The streams that a delete names for one kind of block.
#[derive(Clone, Debug, Default, PartialEq, Eq)]
pub struct StreamList {
    pub horizon: u64,
    pub listed: Vec<u64>,
}

#[derive(Clone, Debug, PartialEq, Eq)]
pub enum Instruction {
    Insert {
        index: u64,
        name: Name,
        value: Vec<u8>,
    },
    /// The lists for non-trailer blocks and for trailer blocks.
    Delete {
        index: u64,
        lists: [StreamList; 2],
    },
    Acknowledge {
        index: u64,
    },
}

impl StreamList {
    /// Every stream below the horizon, then the listed ones.
    pub fn named(&self) -> impl Iterator<Item = u64> + '_ {
        (0..self.horizon).chain(self.listed.iter().copied())
    }

    fn read(reader: &mut Reader) -> Answer<StreamList> {
        let horizon = reader.integer(8)?;
        refuse_if(horizon > STREAMS, 14)?;
        let count = reader.integer(8)?;
        refuse_if(count > LISTED_MOST, 14)?;
        let mut listed = Vec::new();
        let mut last = horizon;
        for _ in 0..count {
            let delta = reader.integer(8)?;
            last += delta;
            refuse_if(delta == 0 || last >= STREAMS, 14)?;
            listed.push(last);
        }
        Ok(StreamList { horizon, listed })
    }

    fn put(&self, out: &mut Vec<u8>) {
        put_integer(out, 0, 8, self.horizon);
        put_integer(out, 0, 8, self.listed.len() as u64);
        let mut last = self.horizon;
        for &stream in &self.listed {
            put_integer(out, 0, 8, stream - last);
            last = stream;
        }
    }
}

impl Name {
    /// A name index with the given prefix; 0 means that a string follows.
    pub fn read(reader: &mut Reader, width: u32) -> Answer<Name> {
        match reader.integer(width)? {
            0 => Ok(Name::Text(reader.string(NAME_MOST)?)),
            index => Ok(Name::Index(index)),
        }
    }

    pub fn put(&self, out: &mut Vec<u8>, pattern: u8, width: u32) {
        match self {
            Name::Index(index) => put_integer(out, pattern, width, *index),
            Name::Text(text) => {
                put_integer(out, pattern, width, 0);
                put_string(out, text);
            }
        }
    }
}

/// An index that names a place of the dynamic table.
fn dynamic(index: u64) -> Answer<u64> {
    refuse_if(index <= statics::LAST, 5)?;
    Ok(index)
}

/// The instruction at the front of what a decoder is given, and how many bytes it took.
pub fn read_for_decoder(bytes: &[u8]) -> Answer<(Instruction, usize)> {
    let mut reader = Reader::new(bytes);
    let instruction = match reader.peek()? >> 6 {
        0b10 | 0b11 => Instruction::Insert {
            index: dynamic(reader.integer(7)?)?,
            name: Name::read(&mut reader, 8)?,
            value: reader.string(VALUE_MOST)?,
        },
        0b00 => Instruction::Delete {
            index: dynamic(reader.integer(6)?)?,
            lists: [StreamList::read(&mut reader)?, StreamList::read(&mut reader)?],
        },
        _ => return refuse(5),
    };
    Ok((instruction, bytes.len() - reader.left()))
}

/// The index acknowledged at the front of what an encoder is given, and how many bytes it took.
pub fn read_for_encoder(bytes: &[u8]) -> Answer<(u64, usize)> {
    let mut reader = Reader::new(bytes);
    refuse_if(reader.peek()? >> 6 != 0b01, 5)?;
    let index = dynamic(reader.integer(6)?)?;
    Ok((index, bytes.len() - reader.left()))
}

/// The bytes of an instruction.
pub fn written(instruction: &Instruction) -> Vec<u8> {
    let mut out = Vec::new();
    match instruction {
        Instruction::Insert { index, name, value } => {
            put_integer(&mut out, 0x80, 7, *index);
            name.put(&mut out, 0, 8);
            put_string(&mut out, value);
        }
        Instruction::Delete { index, lists } => {
            put_integer(&mut out, 0, 6, *index);
            lists.iter().for_each(|list| list.put(&mut out));
        }
        Instruction::Acknowledge { index } => put_integer(&mut out, 0x40, 6, *index),
    }
    out
}
