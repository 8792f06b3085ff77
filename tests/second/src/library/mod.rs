//! The proved library as a C host reaches it, and its comparison with the second program.
pub mod calls;
pub mod compare;
mod deletions;
mod kept;
pub mod layout;
mod lent;
mod order;
mod room;
pub mod tally;
