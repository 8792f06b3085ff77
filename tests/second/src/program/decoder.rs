//! The decoder and its table.
use std::collections::BTreeMap;

use super::blocks::{self, Representation};
use super::fields::{list_of, Field};
use super::instructions::{self, Instruction, Name, StreamList, STREAMS};
use super::statics;
use super::tables::{room_for, Done, Entry, Parts, LIMIT_MOST};
use super::wire::{refuse, refuse_if, Answer, Refusal, LARGEST};

/// A delete that was read and whose entry is not freed yet.
#[derive(Clone, Debug, PartialEq, Eq)]
pub struct Delete {
    pub index: u64,
    pub lists: [StreamList; 2],
}

#[derive(Clone, Debug, PartialEq, Eq)]
pub struct Decoder {
    pub limit: u64,
    pub entries: BTreeMap<u64, Entry>,
    /// In the order in which they came.
    pub deletes: Vec<Delete>,
    pub finished: Parts,
}

impl Decoder {
    pub fn start(limit: u64) -> Answer<Decoder> {
        refuse_if(limit > LIMIT_MOST, 7)?;
        Ok(Decoder { limit, entries: BTreeMap::new(), deletes: Vec::new(), finished: Parts::none() })
    }

    /// The sizes of all entries, those under deletion included.
    pub fn held(&self) -> u64 {
        self.entries.values().map(Entry::size).sum()
    }

    pub fn read(&mut self, bytes: &[u8]) -> Answer<Done> {
        let (instruction, taken) = instructions::read_for_decoder(bytes)?;
        match instruction {
            Instruction::Insert { index, name, value } => self.insert(index, name, value)?,
            Instruction::Delete { index, lists } => self.delete(index, lists)?,
            Instruction::Acknowledge { .. } => return refuse(5),
        }
        Ok(Done::telling(taken as u64, 0))
    }

    fn insert(&mut self, index: u64, name: Name, value: Vec<u8>) -> Answer<()> {
        let name = match name {
            Name::Text(text) => text,
            Name::Index(at) => match self.field_at(at) {
                Some((name, _)) => name.to_vec(),
                None => return refuse(8),
            },
        };
        refuse_if(self.entries.contains_key(&index), 6)?;
        let entry = Entry { name, value };
        room_for(entry.size(), self.held(), self.limit)?;
        self.entries.insert(index, entry);
        Ok(())
    }

    fn delete(&mut self, index: u64, lists: [StreamList; 2]) -> Answer<()> {
        refuse_if(!self.entries.contains_key(&index), 8)?;
        refuse_if(self.under_deletion(index).is_some(), 9)?;
        self.deletes.push(Delete { index, lists });
        Ok(())
    }

    fn under_deletion(&self, index: u64) -> Option<&Delete> {
        self.deletes.iter().find(|delete| delete.index == index)
    }

    /// Name and value at an index of either table.
    fn field_at(&self, index: u64) -> Option<(&[u8], &[u8])> {
        if index <= statics::LAST {
            return Some(statics::at(index));
        }
        self.entries.get(&index).map(|entry| (&entry.name[..], &entry.value[..]))
    }

    pub fn block(&mut self, stream: u64, part: u64, bytes: &[u8], room: usize) -> Answer<Done> {
        let part = self.finished.in_turn(stream, part)?;
        let block = blocks::read(bytes)?;
        let vacant = block.iter().filter_map(Representation::refers_to).find(|index| !self.entries.contains_key(index));
        if let Some(told) = vacant {
            return Err(Refusal { answer: 1, told });
        }
        let fields: Vec<Field> = block.into_iter().map(|representation| self.field(representation)).collect();
        let done = Done::writing(list_of(&fields), room)?;
        self.finished.done(part, stream);
        Ok(done)
    }

    /// The field of a representation whose index, if it has one, is not vacant.
    fn field(&self, representation: Representation) -> Field {
        let at = |index| self.field_at(index).expect("looked for before");
        match representation {
            Representation::Indexed(index) => {
                let (name, value) = at(index);
                Field { never: false, name: name.to_vec(), value: value.to_vec() }
            }
            Representation::Literal { never, name: Name::Index(index), value } => Field { never, name: at(index).0.to_vec(), value },
            Representation::Literal { never, name: Name::Text(name), value } => Field { never, name, value },
        }
    }

    pub fn over(&mut self, stream: u64) -> Answer<Done> {
        refuse_if(stream >= STREAMS, 11)?;
        self.finished.add(0, stream);
        Ok(Done::default())
    }

    pub fn ended(&mut self, stream: u64) -> Answer<Done> {
        refuse_if(stream >= STREAMS, 11)?;
        self.finished.add(0, stream);
        self.finished.add(1, stream);
        Ok(Done::default())
    }

    /// The streams of the parts that a delete names and that are not finished, a stream for each part.
    fn unfinished<'a>(&'a self, delete: &'a Delete) -> impl Iterator<Item = u64> + 'a {
        let of_part = |part: usize| delete.lists[part].named().filter(move |&stream| !self.finished.has(part, stream));
        of_part(0).chain(of_part(1))
    }

    /// Frees the ready entry whose delete came first. Where its acknowledgement has no room no other is freed instead.
    pub fn collect(&mut self, room: usize) -> Answer<Done> {
        let Some(place) = self.deletes.iter().position(|delete| self.unfinished(delete).next().is_none()) else {
            return Ok(Done::default());
        };
        let index = self.deletes[place].index;
        let done = Done::writing(instructions::written(&Instruction::Acknowledge { index }), room)?;
        self.entries.remove(&index);
        self.deletes.remove(place);
        Ok(done)
    }

    pub fn hold(&self, index: u64) -> Answer<Done> {
        refuse_if(index <= statics::LAST || index > LARGEST, 5)?;
        refuse_if(!self.entries.contains_key(&index), 8)?;
        let Some(delete) = self.under_deletion(index) else {
            return refuse(10);
        };
        let count = self.unfinished(delete).count() as u64;
        let lowest = self.unfinished(delete).min().unwrap_or(STREAMS);
        Ok(Done::telling(count, lowest))
    }
}
