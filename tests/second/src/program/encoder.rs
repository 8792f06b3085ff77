//! The encoder and its table.
use std::collections::{BTreeMap, BTreeSet};

use super::blocks::{self, Representation};
use super::fields::{fields_of, Field};
use super::instructions::{self, Instruction, Name, StreamList};
use super::statics;
use super::tables::{room_for, Done, Entry, Parts, LIMIT_MOST};
use super::wire::{refuse, refuse_if, Answer, LARGEST, NAME_MOST, VALUE_MOST};

/// An entry, whether it is under deletion, and the streams whose blocks of either kind refer to it.
#[derive(Clone, Debug, PartialEq, Eq)]
pub struct Held {
    pub entry: Entry,
    pub deleting: bool,
    pub references: [BTreeSet<u64>; 2],
}

impl Held {
    /// One more than the highest stream that refers to the entry in blocks of a kind, 0 if none does.
    pub fn horizon(&self, part: usize) -> u64 {
        self.references[part].last().map_or(0, |stream| stream + 1)
    }
}

#[derive(Clone, Debug, PartialEq, Eq)]
pub struct Encoder {
    pub limit: u64,
    pub entries: BTreeMap<u64, Held>,
    pub closed: Parts,
}

impl Encoder {
    pub fn start(limit: u64) -> Answer<Encoder> {
        refuse_if(limit > LIMIT_MOST, 7)?;
        Ok(Encoder { limit, entries: BTreeMap::new(), closed: Parts::none() })
    }

    /// The sizes of all entries, those under deletion included.
    pub fn held(&self) -> u64 {
        self.entries.values().map(|held| held.entry.size()).sum()
    }

    pub fn insert(&mut self, name: &[u8], value: &[u8], room: usize) -> Answer<Done> {
        refuse_if(name.len() as u64 > NAME_MOST || value.len() as u64 > VALUE_MOST, 13)?;
        let entry = Entry { name: name.to_vec(), value: value.to_vec() };
        room_for(entry.size(), self.held(), self.limit)?;
        let index = (statics::LAST + 1..).find(|index| !self.entries.contains_key(index)).expect("128 entries at most");
        let insert = Instruction::Insert { index, name: self.name_for(name), value: value.to_vec() };
        let mut done = Done::writing(instructions::written(&insert), room)?;
        done.second = index;
        self.entries.insert(index, Held { entry, deleting: false, references: Default::default() });
        Ok(done)
    }

    pub fn delete(&mut self, index: u64, room: usize) -> Answer<Done> {
        refuse_if(index <= statics::LAST || index > LARGEST, 5)?;
        let Some(held) = self.entries.get_mut(&index) else {
            return refuse(8);
        };
        refuse_if(held.deleting, 9)?;
        let lists = [0, 1].map(|part| StreamList { horizon: held.horizon(part), listed: Vec::new() });
        let done = Done::writing(instructions::written(&Instruction::Delete { index, lists }), room)?;
        held.deleting = true;
        Ok(done)
    }

    pub fn block(&mut self, stream: u64, part: u64, list: &[u8], room: usize) -> Answer<Done> {
        let part = self.closed.in_turn(stream, part)?;
        let fields = fields_of(list)?;
        let block: Vec<Representation> = fields.into_iter().map(|field| self.representation(field)).collect();
        let done = Done::writing(blocks::written(&block)?, room)?;
        for index in block.iter().filter_map(Representation::refers_to) {
            let held = self.entries.get_mut(&index).expect("only held entries are referred to");
            held.references[part].insert(stream);
        }
        self.closed.done(part, stream);
        Ok(done)
    }

    fn representation(&self, field: Field) -> Representation {
        if !field.never {
            let equal = |name: &[u8], value: &[u8]| name == field.name && value == field.value;
            if let Some(index) = self.lowest(equal) {
                return Representation::Indexed(index);
            }
        }
        Representation::Literal { never: field.never, name: self.name_for(&field.name), value: field.value }
    }

    /// A name by its lowest index, static before dynamic, or else as a string.
    fn name_for(&self, name: &[u8]) -> Name {
        match self.lowest(|other, _| other == name) {
            Some(index) => Name::Index(index),
            None => Name::Text(name.to_vec()),
        }
    }

    /// The lowest static index that passes the test, else the lowest dynamic one not under deletion.
    fn lowest(&self, test: impl Fn(&[u8], &[u8]) -> bool) -> Option<u64> {
        let usable = |held: &Held| !held.deleting && test(&held.entry.name, &held.entry.value);
        let dynamic = || self.entries.iter().find(|(_, held)| usable(held)).map(|(&index, _)| index);
        statics::lowest(&test).or_else(dynamic)
    }

    pub fn acknowledge(&mut self, bytes: &[u8]) -> Answer<Done> {
        let (index, taken) = instructions::read_for_encoder(bytes)?;
        refuse_if(!self.entries.get(&index).is_some_and(|held| held.deleting), 10)?;
        self.entries.remove(&index);
        Ok(Done::telling(taken as u64, 0))
    }
}
