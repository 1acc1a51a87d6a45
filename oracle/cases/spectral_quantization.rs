// Cases of the spectral quantisation: the quantiser, the gain search and the bit estimate. The count is that of the random
// cases of each.

use super::{estimate, gain_search, quantiser};
use crate::records::{Records, Rng};

// An estimate has a frame's lines, so there are fewer of them.
const ESTIMATES: usize = 4;

pub fn run(out: &mut Records, seed: u64, count: usize) {
    let rng = &mut Rng::new(seed);
    quantiser::run(out, rng, count).say();
    gain_search::run(out, rng, count).say();
    estimate::run(out, rng, count / ESTIMATES).say();
}

pub fn sample(out: &mut Records) {
    let rng = &mut Rng::new(0);
    quantiser::sample(out, rng).say();
    gain_search::sample(out, rng).say();
    estimate::sample(out, rng).say();
}
