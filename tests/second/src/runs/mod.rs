//! The kinds of run. A run is a list of calls that a seed makes, each call chosen from what came before.
mod channel;
mod claims;
mod damage;
mod history;
mod hostile;
mod link;
mod made_up;
mod noise;
mod packed;
mod pairs;
mod streams;
mod wild;
mod words;

use crate::library::compare::{Bench, Ran};
use crate::random::Random;
use words::{Style, STYLES};

#[derive(Clone, Copy, Debug, PartialEq, Eq)]
pub enum Kind {
    /// A link that keeps the rules of documents 01 and 02, streams in any order.
    Rules,
    /// The same with streams that are reset or lost whole.
    Resets,
    /// The same with refused calls in between.
    Refused,
    /// Both ends alone, with mutated, cut, padded and random bytes and arguments.
    Hostile,
    /// Memory that somebody else wrote.
    Damage,
}

pub const KINDS: [Kind; 5] = [Kind::Rules, Kind::Resets, Kind::Refused, Kind::Hostile, Kind::Damage];

impl Kind {
    pub fn name(self) -> &'static str {
        match self {
            Kind::Rules => "rules",
            Kind::Resets => "resets",
            Kind::Refused => "refused",
            Kind::Hostile => "hostile",
            Kind::Damage => "damage",
        }
    }

    pub fn named(name: &str) -> Option<Kind> {
        KINDS.into_iter().find(|kind| kind.name() == name)
    }
}

/// Runs about so many calls.
pub fn run(kind: Kind, seed: u64, calls: usize, bench: &mut Bench) -> Ran<()> {
    let mut random = Random::new(seed);
    let style = random.weighted(&STYLES);
    styled(kind, style, random, calls, bench)
}

/// A run to be kept as a recording: machine reports, so that its lines are short.
pub fn recorded(kind: Kind, seed: u64, calls: usize, bench: &mut Bench) -> Ran<()> {
    styled(kind, Style::Reports, Random::new(seed), calls, bench)
}

fn styled(kind: Kind, style: Style, random: Random, calls: usize, bench: &mut Bench) -> Ran<()> {
    match kind {
        Kind::Rules | Kind::Resets | Kind::Refused => link::run(kind, style, random, calls, bench),
        Kind::Hostile => hostile::run(style, random, calls, bench),
        Kind::Damage => damage::run(style, random, calls, bench),
    }
}

/// The limits that document 01's rules turn on, and some others.
pub fn limit(random: &mut Random) -> u64 {
    match random.below(10) {
        0 => *random.pick(&[0, 31, 32, 33]),
        1 => *random.pick(&[67, 68, 69, 102]),
        2 => random.below(4097),
        3 => 4095,
        _ => 4096,
    }
}
