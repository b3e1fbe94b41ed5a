//! The second reader: the rules of documents 01 and 02 over again, bit by bit and with no thought of speed.
//! It is written from those documents alone and shares no code with the library or the package.

pub mod bare;
pub mod calls;
pub mod delta;
pub mod dictionary;
pub mod horizontal;
pub mod numbers;
pub mod runs;
pub mod signed;
pub mod spans;
pub mod vertical;

/// What a call must leave behind: its answer, and all that the place lent for writing holds.
#[derive(Debug, PartialEq)]
pub struct Outcome<T> {
    pub code: u32,
    pub number: u32,
    pub held: Vec<T>,
}

/// Every code from 1 up gives number 0 and changes nothing lent.
pub fn refused<T: Copy>(code: u32, lent: &[T]) -> Outcome<T> {
    Outcome {
        code,
        number: 0,
        held: lent.to_vec(),
    }
}

/// Places past those written keep what they held.
pub fn accepted<T: Copy>(number: usize, written: &[T], lent: &[T]) -> Outcome<T> {
    let mut held = lent.to_vec();
    held[..written.len()].copy_from_slice(written);
    Outcome {
        code: 0,
        number: u32::try_from(number).expect("the limits keep every number below 2^32"),
        held,
    }
}

/// What a page is a list of: bytes, or words of 64 bits; or a list of spans, numbers of 32.
pub trait Unit: Copy {
    const BITS: usize;

    fn number(self) -> u64;

    /// The unit of a number, of its lowest bits if it has more.
    fn of(number: u64) -> Self;
}

impl Unit for u8 {
    const BITS: usize = 8;

    fn number(self) -> u64 {
        self.into()
    }

    fn of(number: u64) -> u8 {
        number as u8
    }
}

impl Unit for u32 {
    const BITS: usize = 32;

    fn number(self) -> u64 {
        self.into()
    }

    fn of(number: u64) -> u32 {
        number as u32
    }
}

impl Unit for u64 {
    const BITS: usize = 64;

    fn number(self) -> u64 {
        self
    }

    fn of(number: u64) -> u64 {
        number
    }
}

/// Bit k of a unit, lowest first.
pub fn bit<U: Unit>(unit: U, k: usize) -> bool {
    (unit.number() >> k) & 1 == 1
}

/// The units in which the given bits stand, lowest first, unused bits of the last one 0.
pub fn units_of<U: Unit>(bits: &[bool]) -> Vec<U> {
    let mut units = Vec::new();
    for some in bits.chunks(U::BITS) {
        let mut number = 0;
        for (k, &set) in some.iter().enumerate() {
            if set {
                number += 1u64 << k;
            }
        }
        units.push(U::of(number));
    }
    units
}

/// Whether x satisfies the comparison. All numbers are whole numbers.
pub fn satisfies(op: u32, x: i128, a: i128, b: i128) -> bool {
    match op {
        0 => x == a,
        1 => x != a,
        2 => x < a,
        3 => x <= a,
        4 => x > a,
        5 => x >= a,
        6 => a <= x && x <= b,
        7 => !(a <= x && x <= b),
        _ => panic!("operator {op} is refused before anything is compared"),
    }
}

/// A scan's answer: ceil(n/8) bytes, bit i being bit i mod 8, lowest first, of byte i div 8, and the
/// number of set bits.
pub fn selection(selected: &[bool], bitmap: &[u8]) -> Outcome<u8> {
    let count = selected.iter().filter(|&&set| set).count();
    accepted(count, &units_of(selected), bitmap)
}
