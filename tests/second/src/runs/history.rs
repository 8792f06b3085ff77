//! What calls and answers say of a link that keeps the rules, kept apart from the second program's own state: which instructions are on
//! their way, and which slots each end holds.
use std::collections::{BTreeSet, VecDeque};

use crate::program::instructions::{self, Instruction};
use crate::random::Random;

#[derive(Default)]
pub struct History {
    /// Written by the encoder and not read yet.
    unread: VecDeque<Instruction>,
    /// Inserted at the encoder and not deleted there.
    usable: BTreeSet<u64>,
    /// Inserted at the decoder and not freed there.
    held: BTreeSet<u64>,
}

impl History {
    /// An index that the encoder may delete.
    pub fn to_delete(&self, random: &mut Random) -> Option<u64> {
        let usable: Vec<u64> = self.usable.iter().copied().collect();
        (!usable.is_empty()).then(|| *random.pick(&usable))
    }

    /// Whether the decoder's slot is not empty.
    pub fn holds(&self, index: u64) -> bool {
        self.held.contains(&index)
    }

    /// The encoder wrote an instruction, which must read back.
    pub fn managed(&mut self, bytes: &[u8]) -> Result<(), String> {
        let Ok((instruction, _)) = instructions::read_for_decoder(bytes) else {
            return Err("a written instruction does not read back".to_string());
        };
        match &instruction {
            Instruction::Insert { index, .. } => self.usable.insert(*index),
            Instruction::Delete { index, .. } => self.usable.remove(index),
            Instruction::Acknowledge { .. } => false,
        };
        self.unread.push_back(instruction);
        Ok(())
    }

    /// The decoder read the next instruction.
    pub fn read(&mut self) {
        if let Instruction::Insert { index, .. } = self.unread.pop_front().expect("an instruction was written") {
            self.held.insert(index);
        }
    }

    /// A collect wrote an acknowledgement, which must read back: its slot is empty.
    pub fn freed(&mut self, bytes: &[u8]) -> Result<(), String> {
        let Ok((index, _)) = instructions::read_for_encoder(bytes) else {
            return Err("a written acknowledgement does not read back".to_string());
        };
        self.held.remove(&index);
        Ok(())
    }
}
