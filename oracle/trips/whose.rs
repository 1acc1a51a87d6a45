// Whose each bit of a written frame is, counted by document 01's words. Nothing here asks this repository's code: the coder's range
// and shifts are those of the Rust.

use crate::writes::content::*;
use crate::writes::rust::Need;

#[derive(Clone, Copy, Debug, PartialEq)]
pub enum Whose {
    // the head's own
    Head,
    Side,
    // a bit of a magnitude, below the two in its pair's last symbol
    Low,
    Sign,
    // a residual bit; in least-bit mode a lowest bit, or the sign of a magnitude 1
    Late,
    // nobody's, with room for what comes late
    Spare,
    // nobody's, and within E
    Unused,
}

pub struct Parts {
    // by the place, from the tail on
    pub places: Vec<Whose>,
    // the tail's bits before what comes late, and the room for that
    pub early: usize,
    pub room: usize,
    // the coder's behind all symbols
    pub shifts: usize,
    pub range: u32,
}

impl Parts {
    // Of an accepted record, with late bits cut to a room of `N` less early bits and what is held back.
    pub fn of(case: &Case, need: &Need, held_back: usize) -> Parts {
        let (c, bits) = (&case.content, case.bits());
        let mut places = vec![Whose::Side; side_bits(case)];
        (0..c.lastnz() / 2).for_each(|pair| put_pair(&mut places, c, pair));
        let early = places.len();
        let room = (bits - early).saturating_sub(held_back);
        places.extend(vec![Whose::Late; c.late_count().min(room)]);
        places.resize(places.len().max(early + room), Whose::Spare);
        let (shifts, range) = (need.shifts, need.state.range);
        let own = 8 * shifts + finish_bits(need.state.low as usize, range as usize);
        places.resize(bits - own, Whose::Unused);
        places.resize(bits, Whose::Head);
        Parts { places, early, room, shifts, range }
    }

    // Places by whose they are.
    pub fn of_any<'a>(&'a self, owners: &[Whose]) -> impl Iterator<Item = usize> + 'a {
        // a bit for each owner: every place of every frame is asked
        let mask = owners.iter().fold(0, |mask, owner| mask | 1u8 << *owner as u8);
        (0..self.places.len()).filter(move |place| mask >> self.places[*place] as u8 & 1 == 1)
    }
}

fn side_bits(case: &Case) -> usize {
    let [bandwidth, pitch, msb] = [BANDWIDTH, PITCH, MSB].map(|field| case.content.side[field] as usize);
    let flags = if bandwidth >= 3 { 2 } else { 1 };
    let stages = 5 + 5 + 1 + [1, 2][msb] + 1 + [25, 24][msb];
    [0, 1, 2, 2, 3][case.fs_ind] + lastnz_bits(case.ne()) + 1 + 8 + flags + 1 + stages + 10 * pitch + 3
}

// The logarithm of ne/2, rounded up.
pub fn lastnz_bits(ne: usize) -> usize {
    (0..).find(|width| 1 << width >= ne / 2).expect("some width suffices")
}

// Two low bits for each escape, and a sign for each line that is not 0 by then; in least-bit mode without the lowest bits.
fn put_pair(places: &mut Vec<Whose>, c: &Content, pair: usize) {
    let (escapes, late) = (c.escapes(pair), (c.least_bits() && c.escaped(pair)) as u32);
    places.extend((late..escapes).flat_map(|_| [Whose::Low; 2]));
    let lines = [c.lines[2 * pair], c.lines[2 * pair + 1]];
    places.extend(lines.iter().filter(|line| line.unsigned_abs() >> late > 0).map(|_| Whose::Sign));
}

// The fewest bits, of 24 - log2 of the range and one more, such that whatever follows them the number stays within the range from
// low on.
fn finish_bits(low: usize, range: usize) -> usize {
    let fewest = 24 - range.ilog2() as usize;
    let unit = 1 << (24 - fewest);
    let first = low.div_ceil(unit) * unit;
    if first + unit <= low + range {
        fewest
    } else {
        fewest + 1
    }
}
