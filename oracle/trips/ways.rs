// The ways in which a written frame is damaged behind the head's own bits and the side information.

use super::whose::{Parts, Whose};
use crate::records::Rng;

#[derive(Clone, Copy, Debug, PartialEq, Eq, PartialOrd, Ord)]
pub enum Way {
    // whatever is not the head's own nor side information
    Anything,
    // signs and what comes late
    Signs,
    // what is nobody's, as far as there is room for late bits and behind it
    Spare,
    // what is nobody's behind that room
    Unused,
    // low bits
    Lows,
}

impl Way {
    fn takes(self) -> &'static [Whose] {
        match self {
            Way::Anything => &[Whose::Low, Whose::Sign, Whose::Late, Whose::Spare, Whose::Unused],
            Way::Signs => &[Whose::Sign, Whose::Late, Whose::Spare, Whose::Unused],
            Way::Spare => &[Whose::Spare, Whose::Unused],
            Way::Unused => &[Whose::Unused],
            Way::Lows => &[Whose::Low],
        }
    }

    // The frame with some bits of the way's changed, unless it has none.
    pub fn damaged(self, rng: &mut Rng, frame: &[u8], parts: &Parts) -> Option<Vec<u8>> {
        let places: Vec<usize> = parts.of_any(self.takes()).collect();
        if places.is_empty() {
            return None;
        }
        let mut other = frame.to_vec();
        match rng.below(4) {
            0 => (0..=rng.below(3)).for_each(|_| flip(&mut other, places[rng.below(places.len())])),
            // ones make the most lines nonzero, which then take the most signs
            1 => places.iter().for_each(|place| put_bit(&mut other, *place, 1)),
            2 => places.iter().for_each(|place| flip(&mut other, *place)),
            _ => places.iter().filter(|_| rng.below(2) == 0).for_each(|place| flip(&mut other, *place)),
        }
        Some(other)
    }
}

// The bit at a place from the tail on, which begins with the lowest bit of the last byte.
pub fn bit_at(frame: &[u8], place: usize) -> u8 {
    frame[frame.len() - 1 - place / 8] >> (place % 8) & 1
}

pub fn put_bit(frame: &mut [u8], place: usize, bit: u8) {
    if bit_at(frame, place) != bit {
        flip(frame, place);
    }
}

fn flip(frame: &mut [u8], place: usize) {
    let at = frame.len() - 1 - place / 8;
    frame[at] ^= 1 << (place % 8);
}
