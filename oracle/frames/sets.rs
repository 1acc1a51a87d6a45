// Table sets: flat, the standard's, and random ones.

use crate::lc3::tables::{self, Set, FLAT};
use crate::records::Rng;
use crate::rows::{any, peaked, Row};

// A set that is in force in the Rust, and as it is lent to the port.
#[derive(Clone, PartialEq)]
pub struct Lent {
    pub lookup: Vec<u8>,
    pub frequencies: Vec<u16>,
    pub bits: Vec<u16>,
    pub orders: Vec<u16>,
    pub coefficients: Vec<u16>,
}

fn flattened<const N: usize>(rows: &[[i16; N]]) -> Vec<u16> {
    rows.iter().flatten().map(|n| *n as u16).collect()
}

impl Lent {
    pub fn of(set: &Set) -> Self {
        tables::lend(set);
        Lent {
            lookup: set.lookup.to_vec(),
            frequencies: flattened(&set.spectral),
            bits: set.bits.iter().flatten().copied().collect(),
            orders: flattened(&set.order),
            coefficients: flattened(&set.coef),
        }
    }
}

// Copies of a set that passes, each changed in one way, and whether it still passes: document 01's rule, since the Rust has no such
// check.
pub fn changed(set: &Lent) -> Vec<(bool, Lent)> {
    let mut all = Vec::new();
    let mut add = |passes: bool, change: &dyn Fn(&mut Lent)| {
        let mut copy = set.clone();
        change(&mut copy);
        all.push((passes, copy));
    };
    for at in [0, 2048, 4095] {
        add(false, &|s| s.lookup[at] = 64);
    }
    // the parts whose rows have a total: rows, and entries of a row
    let totalled: [(fn(&mut Lent) -> &mut Vec<u16>, usize, usize); 3] =
        [(|s| &mut s.frequencies, 64, 17), (|s| &mut s.orders, 2, 8), (|s| &mut s.coefficients, 8, 17)];
    for (part, rows, width) in totalled {
        let table = part(&mut set.clone()).clone();
        for at in [0, rows / 2, rows - 1].map(|row| row * width) {
            let large = (at + 1..at + width).find(|k| table[*k] > 1).expect("a row with room");
            add(false, &|s| part(s)[at + 3] += 1);
            add(false, &|s| part(s)[large] -= 1);
            // the total stays 1,024, so that it is the 0 alone that is refused
            add(false, &|s| {
                part(s)[at + 1] = 0;
                part(s)[at + 2] += table[at + 1];
            });
            add(true, &|s| {
                part(s)[large] -= 1;
                part(s)[at] += 1;
            });
        }
    }
    add(false, &|s| s.lookup.truncate(4095));
    add(false, &|s| s.lookup.push(0));
    let words: [fn(&mut Lent) -> &mut Vec<u16>; 4] =
        [|s| &mut s.frequencies, |s| &mut s.bits, |s| &mut s.orders, |s| &mut s.coefficients];
    for part in words {
        add(false, &|s| {
            part(s).pop();
        });
        add(false, &|s| part(s).push(0));
    }
    // bits have a size and no other rule
    add(true, &|s| s.bits.iter_mut().for_each(|b| *b ^= 0xffff));
    all
}

pub fn fixed<const N: usize>(row: Row) -> [i16; N] {
    row.frequency.try_into().expect("a row of another length")
}

// The last symbol of a row, which is an escape.
const ESCAPE: usize = 16;

// Rows of every kind; in every third set most escape, in every third most are zeros.
pub fn random(rng: &mut Rng) -> Set {
    let mut set = FLAT;
    let favoured = [None, Some(ESCAPE), Some(0)][rng.below(3)];
    let share = 1 + rng.below(12);
    for row in &mut set.spectral {
        *row = fixed(match favoured {
            Some(symbol) if rng.below(share) != 0 => peaked(17, symbol),
            _ => any(rng, 17),
        });
    }
    if rng.below(4) != 0 {
        set.lookup.iter_mut().for_each(|entry| *entry = rng.below(64) as u8);
    }
    set.order = [(); 2].map(|_| fixed(any(rng, 8)));
    set.coef = [(); 8].map(|_| fixed(any(rng, 17)));
    set
}
