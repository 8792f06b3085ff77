//! Packed strings: the code of RFC 7541, Appendix B, as a tree that is walked bit by bit.
use std::sync::OnceLock;

/// The end mark, behind the 256 bytes.
pub const END_MARK: u16 = 256;
/// The most bits of padding.
const PADDING_MOST: usize = 7;

/// The symbols by the length of their codes. Codes of one length are consecutive numbers in the order of their symbols, and the first of a
/// length is the number behind the last shorter one, with zeros added.
const BY_LENGTH: [(u32, &[u16]); 21] = [
    (5, &[0x30, 0x31, 0x32, 0x61, 0x63, 0x65, 0x69, 0x6f, 0x73, 0x74]),
    (
        6,
        &[
            0x20, 0x25, 0x2d, 0x2e, 0x2f, 0x33, 0x34, 0x35, 0x36, 0x37, 0x38, 0x39, 0x3d, 0x41, 0x5f, 0x62, 0x64, 0x66, 0x67, 0x68, 0x6c,
            0x6d, 0x6e, 0x70, 0x72, 0x75,
        ],
    ),
    (
        7,
        &[
            0x3a, 0x42, 0x43, 0x44, 0x45, 0x46, 0x47, 0x48, 0x49, 0x4a, 0x4b, 0x4c, 0x4d, 0x4e, 0x4f, 0x50, 0x51, 0x52, 0x53, 0x54, 0x55,
            0x56, 0x57, 0x59, 0x6a, 0x6b, 0x71, 0x76, 0x77, 0x78, 0x79, 0x7a,
        ],
    ),
    (8, &[0x26, 0x2a, 0x2c, 0x3b, 0x58, 0x5a]),
    (10, &[0x21, 0x22, 0x28, 0x29, 0x3f]),
    (11, &[0x27, 0x2b, 0x7c]),
    (12, &[0x23, 0x3e]),
    (13, &[0x00, 0x24, 0x40, 0x5b, 0x5d, 0x7e]),
    (14, &[0x5e, 0x7d]),
    (15, &[0x3c, 0x60, 0x7b]),
    (19, &[0x5c, 0xc3, 0xd0]),
    (20, &[0x80, 0x82, 0x83, 0xa2, 0xb8, 0xc2, 0xe0, 0xe2]),
    (21, &[0x99, 0xa1, 0xa7, 0xac, 0xb0, 0xb1, 0xb3, 0xd1, 0xd8, 0xd9, 0xe3, 0xe5, 0xe6]),
    (
        22,
        &[
            0x81, 0x84, 0x85, 0x86, 0x88, 0x92, 0x9a, 0x9c, 0xa0, 0xa3, 0xa4, 0xa9, 0xaa, 0xad, 0xb2, 0xb5, 0xb9, 0xba, 0xbb, 0xbd, 0xbe,
            0xc4, 0xc6, 0xe4, 0xe8, 0xe9,
        ],
    ),
    (
        23,
        &[
            0x01, 0x87, 0x89, 0x8a, 0x8b, 0x8c, 0x8d, 0x8f, 0x93, 0x95, 0x96, 0x97, 0x98, 0x9b, 0x9d, 0x9e, 0xa5, 0xa6, 0xa8, 0xae, 0xaf,
            0xb4, 0xb6, 0xb7, 0xbc, 0xbf, 0xc5, 0xe7, 0xef,
        ],
    ),
    (24, &[0x09, 0x8e, 0x90, 0x91, 0x94, 0x9f, 0xab, 0xce, 0xd7, 0xe1, 0xec, 0xed]),
    (25, &[0xc7, 0xcf, 0xea, 0xeb]),
    (26, &[0xc0, 0xc1, 0xc8, 0xc9, 0xca, 0xcd, 0xd2, 0xd5, 0xda, 0xdb, 0xee, 0xf0, 0xf2, 0xf3, 0xff]),
    (27, &[0xcb, 0xcc, 0xd3, 0xd4, 0xd6, 0xdd, 0xde, 0xdf, 0xf1, 0xf4, 0xf5, 0xf6, 0xf7, 0xf8, 0xfa, 0xfb, 0xfc, 0xfd, 0xfe]),
    (
        28,
        &[
            0x02, 0x03, 0x04, 0x05, 0x06, 0x07, 0x08, 0x0b, 0x0c, 0x0e, 0x0f, 0x10, 0x11, 0x12, 0x13, 0x14, 0x15, 0x17, 0x18, 0x19, 0x1a,
            0x1b, 0x1c, 0x1d, 0x1e, 0x1f, 0x7f, 0xdc, 0xf9,
        ],
    ),
    (30, &[0x0a, 0x0d, 0x16, END_MARK]),
];

/// A place in the tree: a symbol, or the places that a 0 and a 1 lead to.
enum Node {
    Symbol(u16),
    Fork([usize; 2]),
}

/// The tree, its root first, and the path to each symbol.
struct Code {
    tree: Vec<Node>,
    paths: Vec<Vec<bool>>,
}

fn code() -> &'static Code {
    static CODE: OnceLock<Code> = OnceLock::new();
    CODE.get_or_init(|| {
        let mut code = Code { tree: Vec::new(), paths: vec![Vec::new(); usize::from(END_MARK) + 1] };
        let mut next = 0u64;
        let mut before = 0;
        for (length, symbols) in BY_LENGTH {
            next <<= length - before;
            before = length;
            for &symbol in symbols {
                code.paths[usize::from(symbol)] = (0..length).rev().map(|bit| next >> bit & 1 == 1).collect();
                next += 1;
            }
        }
        let symbols: Vec<u16> = (0..=END_MARK).collect();
        code.grow(&symbols, 0);
        code
    })
}

impl Code {
    /// Adds the part of the tree below a path that these symbols share, so many bits deep; where it stands.
    fn grow(&mut self, symbols: &[u16], depth: usize) -> usize {
        assert!(!symbols.is_empty(), "every path leads to a symbol");
        let place = self.tree.len();
        if let [symbol] = *symbols {
            assert_eq!(self.paths[usize::from(symbol)].len(), depth, "a code ends where it is alone");
            self.tree.push(Node::Symbol(symbol));
            return place;
        }
        self.tree.push(Node::Fork([0, 0]));
        let (ones, zeros): (Vec<u16>, Vec<u16>) = symbols.iter().partition(|&&symbol| self.paths[usize::from(symbol)][depth]);
        let forks = [self.grow(&zeros, depth + 1), self.grow(&ones, depth + 1)];
        self.tree[place] = Node::Fork(forks);
        place
    }
}

/// The codes of the symbols one behind the other, without padding.
pub fn bits_of(symbols: impl Iterator<Item = u16>) -> Vec<bool> {
    symbols.flat_map(|symbol| code().paths[usize::from(symbol)].iter().copied()).collect()
}

/// Bits as bytes, the highest bit first; the last byte is filled with ones.
pub fn bytes_of(bits: &[bool]) -> Vec<u8> {
    let bit = |eight: &[bool], at: usize| u8::from(*eight.get(at).unwrap_or(&true)) << (7 - at);
    bits.chunks(8).map(|eight| (0..8).map(|at| bit(eight, at)).sum()).collect()
}

pub fn packed(text: &[u8]) -> Vec<u8> {
    bytes_of(&bits_of(text.iter().map(|&byte| u16::from(byte))))
}

/// What packed bytes hold before the first fault, if there is one: the end mark, or padding that is no more than seven ones.
pub struct Unpacked {
    pub text: Vec<u8>,
    pub fault: bool,
}

pub fn unpacked(bytes: &[u8]) -> Unpacked {
    let tree = &code().tree;
    let mut text = Vec::new();
    let mut place = 0;
    // The bits since the last symbol.
    let mut rest = Vec::new();
    for bit in bytes.iter().flat_map(|byte| (0..8).rev().map(move |at| byte >> at & 1)) {
        let Node::Fork(forks) = tree[place] else { unreachable!("a symbol leads back to the root") };
        place = forks[usize::from(bit)];
        rest.push(bit);
        if let Node::Symbol(symbol) = tree[place] {
            if symbol == END_MARK {
                return Unpacked { text, fault: true };
            }
            text.push(symbol as u8);
            place = 0;
            rest.clear();
        }
    }
    Unpacked { text, fault: rest.len() > PADDING_MOST || rest.contains(&0) }
}
