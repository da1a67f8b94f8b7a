//! Attribute values that are easily got wrong, and attributes declared out of small pools.

use crate::format::*;
use crate::image::Draft;
use crate::random::Random;

/// Real ends by their bits: zeros, subnormals, ordinary and largest numbers, infinities, and NaN
/// of several payloads and both signs.
const REALS: [u64; 26] = [
    0x0000_0000_0000_0000,
    0x8000_0000_0000_0000,
    0x0000_0000_0000_0001,
    0x8000_0000_0000_0001,
    0x000F_FFFF_FFFF_FFFF,
    0x800F_FFFF_FFFF_FFFF,
    0x0010_0000_0000_0000,
    0x3FF0_0000_0000_0000,
    0x3FF0_0000_0000_0001,
    0xBFF0_0000_0000_0000,
    0x4008_0000_0000_0000,
    0x4014_0000_0000_0000,
    0x4024_0000_0000_0000,
    0xC024_0000_0000_0000,
    0x4340_0000_0000_0000,
    0x7FEF_FFFF_FFFF_FFFF,
    0xFFEF_FFFF_FFFF_FFFF,
    0x7FF0_0000_0000_0000,
    0xFFF0_0000_0000_0000,
    0x7FF8_0000_0000_0000,
    0xFFF8_0000_0000_0000,
    0x7FF8_0000_0000_0001,
    0x7FF0_0000_0000_0001,
    0xFFF0_0000_0000_0001,
    0x7FFF_FFFF_FFFF_FFFF,
    0xFFFF_FFFF_FFFF_FFFF,
];

/// Pairs that differ in their bits alone: the zeros, NaN of two payloads, NaN of two signs.
const ALIKE: [[u64; 2]; 3] = [
    [0x0000_0000_0000_0000, 0x8000_0000_0000_0000],
    [0x7FF8_0000_0000_0000, 0x7FF8_0000_0000_0001],
    [0x7FF8_0000_0000_0000, 0xFFF8_0000_0000_0000],
];

/// Finite ones among them, ascending, for ranges that aren't crossed.
const ASCENDING: [f64; 12] = [
    -f64::MAX,
    -10.0,
    -1.0,
    -5e-324,
    -0.0,
    0.0,
    5e-324,
    1.0,
    3.0,
    5.0,
    10.0,
    f64::MAX,
];

/// Integer ends at and around the defaults, the ends of 64 bits, and where a float would round.
const INTEGERS: [i64; 20] = [
    RUST_DEFAULT_MIN - 1,
    RUST_DEFAULT_MIN,
    RUST_DEFAULT_MIN + 1,
    RUST_DEFAULT_MAX - 1,
    RUST_DEFAULT_MAX,
    RUST_DEFAULT_MAX + 1,
    i64::MIN,
    i64::MIN + 1,
    i64::MAX - 1,
    i64::MAX,
    -1,
    0,
    1,
    3,
    5,
    10,
    20,
    (1 << 53) - 1,
    1 << 53,
    (1 << 53) + 1,
];

/// Integers inside the defaults, ascending.
const ASCENDING_INTEGERS: [i64; 8] = [
    RUST_DEFAULT_MIN,
    RUST_DEFAULT_MIN + 1,
    -1,
    0,
    5,
    10,
    RUST_DEFAULT_MAX - 1,
    RUST_DEFAULT_MAX,
];

/// Units, quantities and display units. Some differ in case or in a blank alone, one is empty.
const WORDS: [&[u8]; 12] = [
    b"K",
    b"degC",
    b"k",
    b"K ",
    b"Pa",
    b"1",
    b"",
    b"m3/s",
    b"ThermodynamicTemperature",
    b"-",
    b"connector#1",
    b"block#0",
];

pub fn real(r: &mut Random) -> u64 {
    r.pick(&REALS)
}

/// NaN or an infinity.
pub fn odd_real(r: &mut Random) -> u64 {
    loop {
        let bits = real(r);
        if !f64::from_bits(bits).is_finite() {
            return bits;
        }
    }
}

pub fn integer(r: &mut Random) -> i64 {
    r.pick(&INTEGERS)
}

pub fn word(r: &mut Random) -> &'static [u8] {
    r.pick(&WORDS)
}

/// The number of a text with these bytes, now and then of a copy under another number.
pub fn text(r: &mut Random, draft: &mut Draft, bytes: &[u8]) -> u16 {
    let same: Vec<u16> = (0..draft.texts.len())
        .filter(|&number| draft.texts[number] == bytes)
        .map(|number| number as u16)
        .collect();
    match r.any(&same) {
        Some(number) if draft.texts.len() > 200 || r.chance(5, 6) => number,
        _ => draft.new_text(bytes),
    }
}

/// Two ends that aren't crossed, as bits of this kind.
pub fn range(r: &mut Random, kind: u8) -> (u64, u64) {
    if kind == KIND_INTEGER {
        let low = r.below(ASCENDING_INTEGERS.len());
        let high = r.between(low, ASCENDING_INTEGERS.len() - 1);
        (
            ASCENDING_INTEGERS[low] as u64,
            ASCENDING_INTEGERS[high] as u64,
        )
    } else {
        let low = r.below(ASCENDING.len());
        let high = r.between(low, ASCENDING.len() - 1);
        (ASCENDING[low].to_bits(), ASCENDING[high].to_bits())
    }
}

/// Two ends that are crossed, as bits of this kind.
pub fn crossed(r: &mut Random, kind: u8) -> (u64, u64) {
    loop {
        let (low, high) = range(r, kind);
        let differ = if kind == KIND_INTEGER {
            low != high
        } else {
            f64::from_bits(low) < f64::from_bits(high)
        };
        if differ {
            return (high, low);
        }
    }
}

/// The values that the members of an image's clusters choose from.
pub struct Pool {
    words: Vec<&'static [u8]>,
    reals: Vec<u64>,
    integers: Vec<i64>,
    /// An attribute is set this many times out of `OF`.
    set: usize,
}

const OF: usize = 8;

impl Pool {
    /// One to three values of each sort: one value agrees everywhere, more also conflict. Now
    /// and then the Reals are two that are easily taken for one.
    pub fn new(r: &mut Random) -> Self {
        let mut count = || r.pick(&[1, 1, 1, 2, 3]);
        let (words, reals, integers) = (count(), count(), count());
        Self {
            words: (0..words).map(|_| word(r)).collect(),
            reals: if r.chance(1, 5) {
                r.pick(&ALIKE).to_vec()
            } else {
                (0..reals).map(|_| real(r)).collect()
            },
            integers: if r.chance(1, 8) {
                vec![1 << 53, (1 << 53) + 1]
            } else {
                (0..integers).map(|_| integer(r)).collect()
            },
            set: r.pick(&[1, 2, 3, 4, 6]),
        }
    }

    pub fn attrs(&self, r: &mut Random, draft: &mut Draft, kind: u8) -> RawAttrs {
        let mut attrs = RawAttrs::of_kind(kind);
        match kind {
            KIND_REAL => {
                for bit in [SET_QUANTITY, SET_UNIT, SET_DISPLAY_UNIT] {
                    if self.sets(r) {
                        let word = r.pick(&self.words);
                        set_text(&mut attrs, bit, text(r, draft, word));
                    }
                }
                for bit in [SET_MIN, SET_MAX, SET_NOMINAL] {
                    if self.sets(r) {
                        set_number(&mut attrs, bit, r.pick(&self.reals));
                    }
                }
                if self.sets(r) {
                    attrs.set |= r.pick(&[SET_UNBOUNDED, SET_UNBOUNDED | UNBOUNDED]);
                }
            }
            KIND_INTEGER => {
                for bit in [SET_MIN, SET_MAX] {
                    if self.sets(r) {
                        set_number(&mut attrs, bit, r.pick(&self.integers) as u64);
                    }
                }
            }
            _ => {}
        }
        attrs
    }

    fn sets(&self, r: &mut Random) -> bool {
        r.chance(self.set, OF)
    }
}

pub fn set_text(attrs: &mut RawAttrs, bit: u8, number: u16) {
    attrs.set |= bit;
    match bit {
        SET_QUANTITY => attrs.quantity = number,
        SET_UNIT => attrs.unit = number,
        _ => attrs.display_unit = number,
    }
}

pub fn set_number(attrs: &mut RawAttrs, bit: u8, bits: u64) {
    attrs.set |= bit;
    match bit {
        SET_MIN => attrs.min = bits,
        SET_MAX => attrs.max = bits,
        _ => attrs.nominal = bits,
    }
}

/// Leave both ends unset.
pub fn clear_ends(attrs: &mut RawAttrs) {
    attrs.set &= !(SET_MIN | SET_MAX);
    attrs.min = 0;
    attrs.max = 0;
}
