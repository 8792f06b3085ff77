//! Fields, and the list form in which the host gives and takes them.
use super::wire::{put_groups, refuse, refuse_if, Answer, NAME_MOST, VALUE_MOST};

#[derive(Clone, Debug, PartialEq, Eq)]
pub struct Field {
    /// The list's flag 1: never store.
    pub never: bool,
    pub name: Vec<u8>,
    pub value: Vec<u8>,
}

/// The list form of the fields.
pub fn list_of(fields: &[Field]) -> Vec<u8> {
    let mut out = Vec::new();
    for field in fields {
        out.push(u8::from(field.never));
        put_groups(&mut out, field.name.len() as u64);
        out.extend_from_slice(&field.name);
        put_groups(&mut out, field.value.len() as u64);
        out.extend_from_slice(&field.value);
    }
    out
}

/// The fields of a list, or the first fault from the left: 16, or 13 for a string that is too long.
pub fn fields_of(list: &[u8]) -> Answer<Vec<Field>> {
    let mut fields = Vec::new();
    let mut rest = list;
    while let Some((&flag, after)) = rest.split_first() {
        refuse_if(flag > 1, 16)?;
        let (name, after) = sized(after, NAME_MOST)?;
        let (value, after) = sized(after, VALUE_MOST)?;
        fields.push(Field { never: flag == 1, name: name.to_vec(), value: value.to_vec() });
        rest = after;
    }
    Ok(fields)
}

/// A length, that many bytes, and what follows them.
fn sized(bytes: &[u8], most: u64) -> Answer<(&[u8], &[u8])> {
    let (length, used) = match *bytes {
        [] => return refuse(16),
        [low, ..] if low < 0x80 => (u64::from(low), 1),
        [_] => return refuse(16),
        [_, high, ..] if high >= 0x80 => return refuse(13),
        [_, 0, ..] => return refuse(16),
        [low, high, ..] => (u64::from(low & 0x7f) + (u64::from(high) << 7), 2),
    };
    refuse_if(length > most, 13)?;
    let text = &bytes[used..];
    refuse_if(length > text.len() as u64, 16)?;
    Ok(text.split_at(length as usize))
}
