//! Integers and strings of RFC 7541, 5.1 and 5.2, with the papers' bounds, read by a cursor and written to a vector.
use super::packing::{packed, unpacked};

/// The largest integer that is read.
pub const LARGEST: u64 = (1 << 27) - 1;
/// The most groups of seven bits that may follow a prefix.
const GROUPS: usize = 4;
/// The longest name and the longest value, in bytes.
pub const NAME_MOST: u64 = 255;
pub const VALUE_MOST: u64 = 2047;
/// A packed length may be so many times the most bytes of its string.
pub const PACKED_TIMES: u64 = 4;
/// The H bit: a string is packed.
pub const PACKED: u8 = 0x80;

/// A number of document 01's table other than 0, and the number told with it.
#[derive(Clone, Copy, Debug, PartialEq, Eq)]
pub struct Refusal {
    pub answer: u8,
    pub told: u64,
}

pub type Answer<T> = Result<T, Refusal>;

/// A refusal that tells nothing.
pub fn refuse<T>(answer: u8) -> Answer<T> {
    Err(Refusal { answer, told: 0 })
}

/// Refuses with the number where the condition holds.
pub fn refuse_if(condition: bool, answer: u8) -> Answer<()> {
    if condition {
        refuse(answer)
    } else {
        Ok(())
    }
}

/// What is left of the bytes, read from the front.
pub struct Reader<'a> {
    rest: &'a [u8],
}

impl<'a> Reader<'a> {
    pub fn new(bytes: &'a [u8]) -> Self {
        Reader { rest: bytes }
    }

    pub fn left(&self) -> usize {
        self.rest.len()
    }

    /// The next byte, which stays where it is.
    pub fn peek(&self) -> Answer<u8> {
        match self.rest.first() {
            Some(&byte) => Ok(byte),
            None => refuse(2),
        }
    }

    fn byte(&mut self) -> Answer<u8> {
        let byte = self.peek()?;
        self.rest = &self.rest[1..];
        Ok(byte)
    }

    /// An integer whose prefix is the low `width` bits of the next byte. At its end 3 is judged, then 19 where it is padded.
    pub fn integer(&mut self, width: u32) -> Answer<u64> {
        let (value, padded) = self.any_form(width)?;
        refuse_if(padded, 19)?;
        Ok(value)
    }

    /// The same, padded or not; whether it is: its last group is zero and is not its only group.
    pub(super) fn any_form(&mut self, width: u32) -> Answer<(u64, bool)> {
        let ones = (1u64 << width) - 1;
        let prefix = u64::from(self.byte()?) & ones;
        if prefix < ones {
            return Ok((prefix, false));
        }
        let groups = self.groups()?;
        let value = groups.iter().rev().fold(0, |value, &group| value << 7 | u64::from(group)) + ones;
        refuse_if(value > LARGEST, 3)?;
        Ok((value, groups.len() > 1 && groups.ends_with(&[0])))
    }

    /// The groups of seven bits behind a prefix of all ones, low group first.
    fn groups(&mut self) -> Answer<Vec<u8>> {
        let mut groups = Vec::new();
        while groups.len() < GROUPS {
            let byte = self.byte()?;
            groups.push(byte & 0x7f);
            if byte & 0x80 == 0 {
                return Ok(groups);
            }
        }
        refuse(3)
    }

    /// A string of at most `most` bytes, plain or packed; a packed one is judged when it is there whole.
    pub fn string(&mut self, most: u64) -> Answer<Vec<u8>> {
        let is_packed = self.peek()? & PACKED != 0;
        let length = self.integer(7)?;
        refuse_if(length > if is_packed { PACKED_TIMES * most } else { most }, 13)?;
        refuse_if(length > self.rest.len() as u64, 2)?;
        let (string, rest) = self.rest.split_at(length as usize);
        self.rest = rest;
        if !is_packed {
            return Ok(string.to_vec());
        }
        let found = unpacked(string);
        refuse_if(found.text.len() as u64 > most, 13)?;
        refuse_if(found.fault, 18)?;
        Ok(found.text)
    }
}

/// Writes an integer behind a pattern of the bits above its prefix, in the fewest bytes.
pub fn put_integer(out: &mut Vec<u8>, pattern: u8, width: u32, value: u64) {
    let ones = (1u64 << width) - 1;
    if value < ones {
        out.push(pattern | value as u8);
        return;
    }
    out.push(pattern | ones as u8);
    put_groups(out, value - ones);
}

/// Writes a number in groups of seven bits, low group first, the top bit set where another follows.
pub fn put_groups(out: &mut Vec<u8>, mut value: u64) {
    while value >= 0x80 {
        out.push(0x80 | (value & 0x7f) as u8);
        value >>= 7;
    }
    out.push(value as u8);
}

/// Writes a string, packed where that is shorter.
pub fn put_string(out: &mut Vec<u8>, string: &[u8]) {
    let shorter = Some(packed(string)).filter(|packed| packed.len() < string.len());
    let (pattern, bytes) = match &shorter {
        Some(packed) => (PACKED, &packed[..]),
        None => (0, string),
    };
    put_integer(out, pattern, 7, bytes.len() as u64);
    out.extend_from_slice(bytes);
}
