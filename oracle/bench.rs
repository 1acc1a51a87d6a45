// Times the Rust of lc3-codec and this repository's code, linked into one program, on the same frames of 100 bytes.
//   bench COUNT [FOLDER]   FOLDER holds tables.bin and recordings
// The Rust never checks its tables; here they are checked once for all frames, or at each frame. Lines are cleared before each call.

#[allow(dead_code)]
mod frames {
    pub mod answers;
    pub mod make;
    pub mod port;
    pub mod recorded;
    pub mod rust;
    pub mod sets;
    pub mod tally;
}
#[allow(dead_code)]
mod lc3;
#[allow(dead_code)]
mod records;
#[allow(dead_code)]
#[path = "cases/rows.rs"]
mod rows;

use frames::answers::Case;
use frames::port::{self, Slices};
use frames::recorded::Recordings;
use frames::sets::Lent;
use frames::{make, rust};
// the six files name these from the crate's root
#[allow(unused_imports)]
use lc3::{common, encoder, tables};
use records::Rng;
use std::hint::black_box;
use std::time::{Duration, Instant};

const BYTES: usize = 100;
// each side is timed so often, in turn, and the shortest time counts
const TURNS: usize = 5;

fn main() {
    let words: Vec<String> = std::env::args().skip(1).collect();
    let (count, folder) = match &words[..] {
        [count] => (count.parse(), None),
        [count, folder] => (count.parse(), Some(folder)),
        _ => usage(),
    };
    let Ok(count) = count else { usage() };
    let mut set = Lent::of(&tables::FLAT);
    if let Some(folder) = folder {
        let recordings = Recordings::of(folder).unwrap_or_else(|why| stop(&why));
        set = Lent::of(&recordings.set);
        let real: Vec<Case> = recordings.frames.into_iter().filter(|case| case.frame.len() == BYTES).collect();
        if real.is_empty() {
            stop("there is no real frame of 100 bytes");
        }
        time("real frames", &real, count, &set);
    }
    let mut rng = Rng::new(1);
    let random: Vec<Case> = (0..1000).map(|_| make::behind_side(&mut rng, BYTES)).collect();
    time("random bytes behind valid side information", &random, count, &set);
}

fn shortest(best: &mut Duration, run: impl FnOnce()) {
    let from = Instant::now();
    run();
    *best = from.elapsed().min(*best);
}

// So many frames, the list again and again, those of one configuration together.
fn time(what: &str, cases: &[Case], count: usize, set: &Lent) {
    let mut cases: Vec<&Case> = cases.iter().cycle().take(count).collect();
    cases.sort_by_key(|case| (case.fs_ind, case.duration));
    let groups: Vec<(&Case, Vec<u8>)> = cases
        .chunk_by(|a, b| (a.fs_ind, a.duration) == (b.fs_ind, b.duration))
        .map(|group| (group[0], group.iter().flat_map(|case| case.frame.iter().copied()).collect()))
        .collect();
    let [mut by_rust, mut by_all, mut by_each] = [Duration::MAX; 3];
    let mut to = Slices::new(480, 0);
    let mut accepted = [0; 3];
    for _ in 0..TURNS {
        accepted = [0; 3];
        shortest(&mut by_rust, || {
            for case in &cases {
                to.lines.fill(0);
                accepted[0] += rust::time(black_box(case), &mut to.lines) as usize;
            }
        });
        shortest(&mut by_all, || {
            for (case, frames) in &groups {
                to.lines.fill(0);
                accepted[1] += port::call_all([case.fs_ind, case.duration, 0], set, frames, BYTES, &mut to.lines);
            }
        });
        shortest(&mut by_each, || {
            for case in &cases {
                to.lines.fill(0);
                accepted[2] += (port::call([case.fs_ind, case.duration, 0], set, &case.frame, &mut to) == 0) as usize;
            }
        });
    }
    if accepted != [accepted[0]; 3] {
        stop(&format!("{}: accepted by the Rust, in one call, one by one: {:?}", what, accepted));
    }
    let rate = |time: Duration| count as f64 / time.as_secs_f64();
    println!("bench: {} {}, {} bytes each, {} accepted", count, what, BYTES, accepted[0]);
    println!("  the Rust                                {:>9.0} a second", rate(by_rust));
    println!("  here, the table set checked once        {:>9.0} a second", rate(by_all));
    println!("  here, the table set checked each time   {:>9.0} a second", rate(by_each));
    println!("  time here to the Rust's, checked once: {:.2}", by_all.as_secs_f64() / by_rust.as_secs_f64());
}

fn usage() -> ! {
    eprintln!("usage: bench COUNT [FOLDER]");
    std::process::exit(2)
}

fn stop(why: &str) -> ! {
    eprintln!("bench: {}", why);
    std::process::exit(1)
}
