// Numbers of single precision that cases are made of, and the places between two of them where an answer changes. A case
// has a number by its bits.

use crate::records::Rng;

// Without their signs: zero; the ends of the subnormal and of the normal numbers; the infinity; NaNs; 1 and what is
// beside it; 0.375; 0.625 and what is beside it; where whole numbers end, and where 16 bits do, also less 0.375.
const SIZES: [u32; 30] = [
    0x00000000, 0x00000001, 0x007fffff, 0x00800000, 0x00800001, 0x7f7fffff, 0x7f800000, 0x7f800001, 0x7fbfffff,
    0x7fc00000, 0x7fffffff, 0x3f7fffff, 0x3f800000, 0x3f800001, 0x3ec00000, 0x3f1fffff, 0x3f200000, 0x3f200001,
    0x4b000000, 0x4b800000, 0x46fffc00, 0x46fffdff, 0x46fffe00, 0x46ffff3f, 0x46ffff40, 0x46ffff41, 0x46ffffff,
    0x47000000, 0x47000001, 0x4f000000,
];

// Each of the sizes with both signs.
pub fn specials() -> Vec<f32> {
    SIZES.into_iter().flat_map(|bits| [bits, bits | 0x8000_0000]).map(f32::from_bits).collect()
}

pub fn special(rng: &mut Rng) -> f32 {
    f32::from_bits(SIZES[rng.below(SIZES.len())] | (rng.next() as u32 & 0x8000_0000))
}

// Any bits at all.
pub fn any(rng: &mut Rng) -> f32 {
    f32::from_bits(rng.next() as u32)
}

// A number between two.
pub fn between(rng: &mut Rng, low: f32, high: f32) -> f32 {
    low + (high - low) * ((rng.next() >> 40) as f32 / 16_777_216.0)
}

// The place of a number in their order; the number at a place. Beside 0 stands -0, and past either infinity stand NaNs.
pub fn place(x: f32) -> u32 {
    let bits = x.to_bits();
    if bits >> 31 == 0 {
        bits | 0x8000_0000
    } else {
        !bits
    }
}

pub fn at_place(place: u32) -> f32 {
    f32::from_bits(if place >> 31 == 1 { place & 0x7fff_ffff } else { !place })
}

// Of two places with other answers: a place with the first's answer, just before one with another.
pub fn apart<T: PartialEq>(from: u32, to: u32, answer: impl Fn(u32) -> T) -> Option<u32> {
    let first = answer(from);
    if answer(to) == first {
        return None;
    }
    let (mut low, mut high) = (from, to);
    while high - low > 1 {
        let middle = low + (high - low) / 2;
        if answer(middle) == first {
            low = middle;
        } else {
            high = middle;
        }
    }
    Some(low)
}
