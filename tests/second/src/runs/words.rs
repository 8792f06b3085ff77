//! Names and values for the runs: machine reports, static names, and texts at the edges of what is allowed.
use super::packed::WIDTHS;
use crate::program::fields::{list_of, Field};
use crate::program::statics;
use crate::random::Random;
use crate::recording::BYTES_MOST;

/// What the texts of a run are like.
#[derive(Clone, Copy, Debug, PartialEq, Eq)]
pub enum Style {
    /// Reports of machines: short names, numbers for values.
    Reports,
    /// Empty and one-byte texts, so that 128 entries fit.
    Tiny,
    /// Any bytes, lengths at the edges.
    Long,
    /// Texts of every length that differ in one byte or by one, static ones among them: what a comparison must tell apart.
    Near,
}

pub const STYLES: [(Style, u64); 4] = [(Style::Reports, 5), (Style::Tiny, 3), (Style::Long, 2), (Style::Near, 5)];

const REPORT_NAMES: [&str; 14] =
    ["turns", "counter", "machine", "pin", "boom", "hours", "yard", "oil", "tilt", "load", "date", "server", "via", "t"];
const NAME_LENGTHS: [u64; 12] = [0, 1, 2, 31, 62, 63, 126, 127, 128, 200, 254, 255];
const VALUE_LENGTHS: [u64; 14] = [0, 1, 2, 31, 126, 127, 128, 254, 255, 256, 500, 1000, 2046, 2047];

/// The fields that a run comes back to, so that entries are used more than once.
pub struct Words {
    style: Style,
    pool: Vec<Field>,
}

impl Words {
    pub fn new(random: &mut Random, style: Style) -> Words {
        let mut words = Words { style, pool: Vec::new() };
        for _ in 0..random.between(4, 40) {
            let field = words.fresh(random);
            words.pool.push(field);
        }
        words
    }

    pub fn style(&self) -> Style {
        self.style
    }

    /// A field made up now.
    fn fresh(&self, random: &mut Random) -> Field {
        let never = random.percent(12);
        if random.percent(15) {
            let (name, value) = *random.pick(&statics::ENTRIES);
            let value = if random.percent(70) { value.as_bytes().to_vec() } else { self.value(random) };
            return Field { never, name: name.as_bytes().to_vec(), value };
        }
        Field { never, name: self.name(random), value: self.value(random) }
    }

    fn name(&self, random: &mut Random) -> Vec<u8> {
        match self.style {
            Style::Reports => random.pick(&REPORT_NAMES).as_bytes().to_vec(),
            Style::Tiny => vec![b'a'; random.below(2) as usize],
            Style::Long => {
                let length = *random.pick(&NAME_LENGTHS) as usize;
                long(random, length)
            }
            Style::Near => {
                let name = random.pick(&statics::ENTRIES).0;
                near(random, name.as_bytes())
            }
        }
    }

    fn value(&self, random: &mut Random) -> Vec<u8> {
        match self.style {
            Style::Reports => random.below(70_000).to_string().into_bytes(),
            Style::Tiny if random.percent(75) => Vec::new(),
            Style::Tiny => random.below(10).to_string().into_bytes(),
            Style::Long => {
                let length = *random.pick(&VALUE_LENGTHS) as usize;
                long(random, length)
            }
            Style::Near => {
                let value = random.pick(&statics::ENTRIES).1;
                near(random, value.as_bytes())
            }
        }
    }

    /// A field of the pool, or one that shares its name, or a new one.
    pub fn field(&self, random: &mut Random) -> Field {
        let mut field = random.pick(&self.pool).clone();
        if self.style == Style::Near && random.percent(40) {
            return self.beside(random, field);
        }
        match random.below(10) {
            0 => field = self.fresh(random),
            1 => field.value = self.value(random),
            2 => field.never = !field.never,
            _ => (),
        }
        field
    }

    /// The field with a byte of its name or its value changed, or one more or one less.
    fn beside(&self, random: &mut Random, mut field: Field) -> Field {
        if random.percent(50) {
            field.name = near(random, &field.name);
        } else {
            field.value = near(random, &field.value);
        }
        field
    }

    /// A field list with a few fields, in list form.
    pub fn list(&self, random: &mut Random) -> Vec<u8> {
        let most = if random.percent(3) { 40 } else { 5 };
        let fields: Vec<Field> = (0..random.below(most)).map(|_| self.field(random)).collect();
        let mut list = list_of(&fields);
        // What a recording's line can hold.
        if list.len() > BYTES_MOST {
            list = list_of(&fields[..2]);
        }
        list
    }
}

/// A text of this length: any bytes, which are longer packed; letters, which are shorter; or one byte throughout.
fn long(random: &mut Random, length: usize) -> Vec<u8> {
    match random.below(4) {
        0 => vec![*random.pick(WIDTHS); length],
        1 => (0..length).map(|_| random.between(u64::from(b'a'), u64::from(b'z')) as u8).collect(),
        _ => random.bytes(length),
    }
}

/// A text that is the same, or differs in one byte, or is one byte shorter or longer, or is some other of up to 40 bytes.
fn near(random: &mut Random, text: &[u8]) -> Vec<u8> {
    let mut text = text.to_vec();
    let at = random.below(text.len() as u64 + 1) as usize;
    match random.below(6) {
        0 if at < text.len() => text[at] ^= 1 << random.below(8),
        1 => text.truncate(text.len().saturating_sub(1)),
        2 => text.push(random.next() as u8),
        3 => {
            let most = *random.pick(&[1, 10, 40]);
            text = vec![*random.pick(b"kX"); random.below(most) as usize];
        }
        _ => (),
    }
    text.truncate(60);
    text
}
