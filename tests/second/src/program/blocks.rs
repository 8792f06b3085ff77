//! Header blocks: a run of representations, indexed or literal.
use super::instructions::Name;
use super::statics;
use super::wire::{put_integer, put_string, refuse_if, Answer, Reader, VALUE_MOST};

/// The longest block, in bytes.
pub const BLOCK_MOST: usize = 16_384;

#[derive(Clone, Debug, PartialEq, Eq)]
pub enum Representation {
    Indexed(u64),
    /// `never` is the N bit.
    Literal {
        never: bool,
        name: Name,
        value: Vec<u8>,
    },
}

impl Representation {
    fn read(reader: &mut Reader) -> Answer<Representation> {
        let first = reader.peek()?;
        if first & 0x80 != 0 {
            let index = reader.integer(7)?;
            refuse_if(index == 0, 5)?;
            return Ok(Representation::Indexed(index));
        }
        let name = Name::read(reader, 6)?;
        let value = reader.string(VALUE_MOST)?;
        Ok(Representation::Literal { never: first & 0x40 != 0, name, value })
    }

    fn put(&self, out: &mut Vec<u8>) {
        match self {
            Representation::Indexed(index) => put_integer(out, 0x80, 7, *index),
            Representation::Literal { never, name, value } => {
                name.put(out, if *never { 0x40 } else { 0 }, 6);
                put_string(out, value);
            }
        }
    }

    /// The place of the dynamic table that it refers to, by index or for a name.
    pub fn refers_to(&self) -> Option<u64> {
        match self {
            Representation::Indexed(index) | Representation::Literal { name: Name::Index(index), .. } => {
                Some(*index).filter(|&index| index > statics::LAST)
            }
            Representation::Literal { .. } => None,
        }
    }
}

/// A block read whole.
pub fn read(bytes: &[u8]) -> Answer<Vec<Representation>> {
    refuse_if(bytes.len() > BLOCK_MOST, 13)?;
    let mut reader = Reader::new(bytes);
    let mut block = Vec::new();
    while reader.left() > 0 {
        block.push(Representation::read(&mut reader)?);
    }
    Ok(block)
}

/// The bytes of a block.
pub fn written(block: &[Representation]) -> Answer<Vec<u8>> {
    let mut out = Vec::new();
    block.iter().for_each(|representation| representation.put(&mut out));
    refuse_if(out.len() > BLOCK_MOST, 13)?;
    Ok(out)
}
