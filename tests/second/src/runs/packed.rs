//! Packed strings for the runs: well-formed ones, also where packing makes them no shorter, and every fault that one can have.
use crate::program::packing::{bits_of, bytes_of, END_MARK};
use crate::random::Random;

/// Bytes whose codes have 5, 7, 8, 13 and 30 bits.
pub const WIDTHS: &[u8; 5] = b"akX\0\n";
/// The code of X, which has eight bits.
pub const EIGHT_BITS: u8 = 0b1111_1100;

/// The bytes of a packed string: of the text, or of one that is about as long as is allowed, in some with a fault.
pub fn string(random: &mut Random, text: &[u8], most: u64) -> Vec<u8> {
    let long = random.below(60) == 0;
    let mut symbols: Vec<u16> = match random.below(15) {
        _ if long => {
            let length = *random.pick(&[most - 1, most, most + 1, most + 2]);
            vec![u16::from(*random.pick(WIDTHS)); length as usize]
        }
        0 => (0..random.below(6)).map(|_| random.below(256) as u16).collect(),
        _ => text.iter().map(|&byte| u16::from(byte)).collect(),
    };
    if random.percent(if long { 40 } else { 6 }) {
        let end = symbols.len() as u64;
        let at = if random.percent(50) { end } else { random.below(end + 1) };
        symbols.insert(at as usize, END_MARK);
    }
    let mut bits = bits_of(symbols.into_iter());
    pad(random, &mut bits);
    bytes_of(&bits)
}

/// Pads the bits to whole bytes: with ones, or in some strings with zeros, with one zero, or with more ones than are allowed.
fn pad(random: &mut Random, bits: &mut Vec<bool>) {
    let padding = bits.len().next_multiple_of(8) - bits.len();
    match random.below(30) {
        0 => bits.extend(vec![false; padding]),
        1 if padding > 0 => {
            let zero = random.below(padding as u64) as usize;
            bits.extend((0..padding).map(|at| at != zero));
        }
        2 => {
            let more = 8 * random.between(1, 4) as usize;
            bits.extend(vec![true; padding + more]);
        }
        3 => bits.extend(vec![false; padding + 8]),
        _ => bits.extend(vec![true; padding]),
    }
}
