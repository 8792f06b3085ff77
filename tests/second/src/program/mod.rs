//! The second program: document 01, with document 02's packed strings and interim answers, entries freed in the order in which their
//! deletes came, no padded numbers and no answer 15, written from the papers alone, in maps and vectors.
pub mod blocks;
pub mod call;
pub mod decoder;
pub mod encoder;
pub mod fields;
pub mod instructions;
pub mod packing;
pub mod statics;
pub mod tables;
pub mod wire;
