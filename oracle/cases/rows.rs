// Rows that the coder's cases are made of: each frequency at least 1, the total 1,024.

use crate::records::Rng;

pub const TOTAL: usize = 1024;
// what the rows of one list may have, with one more to each
const ROOM: usize = 1100;

#[derive(Clone)]
pub struct Row {
    pub frequency: Vec<i16>,
    pub cumulative: Vec<i16>,
}

impl Row {
    pub fn new(frequency: Vec<i16>) -> Self {
        let mut cumulative = vec![0];
        for f in &frequency {
            assert!(*f > 0, "a frequency below 1");
            cumulative.push(cumulative[cumulative.len() - 1] + f);
        }
        assert!(cumulative.pop() == Some(TOTAL as i16), "a row with another total");
        Row { frequency, cumulative }
    }

    pub fn len(&self) -> usize {
        self.frequency.len()
    }

    // The last symbol that begins at or before a point of the row.
    pub fn owner(&self, point: usize) -> usize {
        self.cumulative.partition_point(|c| *c as usize <= point) - 1
    }
}

// The given frequencies, and at place `at` between them what they leave.
pub fn around(mut others: Vec<i16>, at: usize) -> Row {
    let rest = TOTAL as i16 - others.iter().sum::<i16>();
    others.insert(at, rest);
    Row::new(others)
}

// All alike, but for the first, which has also what is left over.
pub fn flat(len: usize) -> Row {
    around(vec![(TOTAL / len) as i16; len - 1], 0)
}

// One symbol has what the others leave, at 1 each.
pub fn peaked(len: usize, at: usize) -> Row {
    around(vec![1; len - 1], at)
}

// The others have 1 to 4 each, as far as that is there.
fn small(rng: &mut Rng, len: usize) -> Row {
    let most = (TOTAL / len).min(4);
    let others = (1..len).map(|_| 1 + rng.below(most) as i16).collect();
    around(others, rng.below(len))
}

// Each symbol has half of what those before it leave, as far as the others then have 1.
fn halved(len: usize) -> Row {
    let mut left = TOTAL;
    let mut others = Vec::new();
    for behind in (1..len).rev() {
        let half = (left / 2).min(left - behind);
        left -= half;
        others.push(half as i16);
    }
    around(others, len - 1)
}

// Cut at random places.
fn cut(rng: &mut Rng, len: usize) -> Row {
    let mut places: Vec<usize> = (1..TOTAL).collect();
    for i in 0..len - 1 {
        let j = i + rng.below(places.len() - i);
        places.swap(i, j);
    }
    places.truncate(len - 1);
    places.sort();
    places.push(TOTAL);
    let mut from = 0;
    Row::new(places.iter().map(|to| (to - std::mem::replace(&mut from, *to)) as i16).collect())
}

pub fn any(rng: &mut Rng, len: usize) -> Row {
    match rng.below(6) {
        0 => flat(len),
        1 => peaked(len, rng.below(len)),
        2 => small(rng, len),
        3 => halved(len),
        _ => cut(rng, len),
    }
}

// One to five rows of any lengths, most of them short.
pub fn some(rng: &mut Rng) -> Vec<Row> {
    let mut room = ROOM;
    let mut rows = Vec::new();
    for _ in 0..=rng.below(5) {
        let len = match rng.below(20) {
            0..=1 => 1 + rng.below(3),
            2..=12 => 1 + rng.below(20),
            13..=15 => [8, 17][rng.below(2)],
            16..=18 => 1 + rng.below(200),
            _ => 1 + rng.below(TOTAL),
        };
        if len + 1 <= room {
            room -= len + 1;
            rows.push(any(rng, len));
        }
    }
    rows
}
