// The flat set as the exported call fills it, into slices of any lengths, beside the one that the shims have written anew.

use super::port;
use super::sets::Lent;
use super::tally::Tally;
use crate::lc3::tables::FLAT;
use crate::records::Rng;

// no part of the flat set has these, so what is left alone shows
const BYTE: u8 = 0xa5;
const NUMBER: u16 = 0xa5a5;
// times that it is filled
const TURNS: usize = 200;

mod exported {
    extern "C" {
        pub fn lc3_flat_set(
            lookup: *mut u8,
            lookup_count: usize,
            frequencies: *mut u16,
            frequencies_count: usize,
            bits: *mut u16,
            bits_count: usize,
            orders: *mut u16,
            orders_count: usize,
            coefficients: *mut u16,
            coefficients_count: usize,
        );
    }
}

fn filled(counts: [usize; 5]) -> Lent {
    let mut set = Lent {
        lookup: vec![BYTE; counts[0]],
        frequencies: vec![NUMBER; counts[1]],
        bits: vec![NUMBER; counts[2]],
        orders: vec![NUMBER; counts[3]],
        coefficients: vec![NUMBER; counts[4]],
    };
    // a slice goes as its place and its count, and the call keeps to both
    unsafe {
        exported::lc3_flat_set(
            set.lookup.as_mut_ptr(),
            set.lookup.len(),
            set.frequencies.as_mut_ptr(),
            set.frequencies.len(),
            set.bits.as_mut_ptr(),
            set.bits.len(),
            set.orders.as_mut_ptr(),
            set.orders.len(),
            set.coefficients.as_mut_ptr(),
            set.coefficients.len(),
        );
    }
    set
}

// A part's front; a longer one goes on with further rows, which are the first ones again.
fn going_on<T: Copy>(part: &[T], count: usize) -> Vec<T> {
    part.iter().copied().cycle().take(count).collect()
}

// First every part at its size, which is a set that passes; then each at its size, shorter or longer.
pub fn all(seed: u64, tally: &mut Tally) -> Result<(), String> {
    let flat = Lent::of(&FLAT);
    let sizes =
        [flat.lookup.len(), flat.frequencies.len(), flat.bits.len(), flat.orders.len(), flat.coefficients.len()];
    let mut rng = Rng::new(seed);
    for turn in 0..TURNS {
        let counts = match turn {
            0 => sizes,
            _ => sizes.map(|size| [size, 0, size - 1, size + 1, rng.below(3 * size)][rng.below(5)]),
        };
        let set = filled(counts);
        let expected = Lent {
            lookup: going_on(&flat.lookup, counts[0]),
            frequencies: going_on(&flat.frequencies, counts[1]),
            bits: going_on(&flat.bits, counts[2]),
            orders: going_on(&flat.orders, counts[3]),
            coefficients: going_on(&flat.coefficients, counts[4]),
        };
        if set != expected {
            return Err(format!("the flat set, filled into {:?} entries, is another", counts));
        }
        if port::check(&set) != (counts == sizes) {
            return Err(format!("the flat set, filled into {:?} entries, and the check says otherwise", counts));
        }
        for (count, size) in counts.into_iter().zip(sizes) {
            tally.add(match count {
                _ if count == size => "parts of the flat set filled at their size",
                _ if count < size => "parts of the flat set filled, shorter",
                _ => "parts of the flat set filled, longer",
            });
        }
    }
    Ok(())
}
