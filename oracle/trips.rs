// The round trip: frames that this repository's code has written are read back, and damaged behind the head's own bits and the side
// information. What has to come of it is said by counts of whose each bit is, apart from that code.
//   trips SEED COUNT [FOLDER]   COUNT frames made from SEED and written; FOLDER holds tables.bin and recordings
// Says how often each outcome occurred, and fails where one may not be or one that can occur did not.

#[allow(dead_code)]
mod frames {
    pub mod answers;
    pub mod port;
    pub mod recorded;
    pub mod rust;
    pub mod sets;
    pub mod tally;
}
#[allow(dead_code)]
mod lc3;
#[allow(dead_code)]
mod records;
#[allow(dead_code)]
#[path = "cases/rows.rs"]
mod rows;
mod trips {
    pub mod back;
    pub mod run;
    pub mod tally;
    pub mod ways;
    pub mod whose;
}
#[allow(dead_code)]
mod writes {
    pub mod again;
    pub mod content;
    pub mod make;
    pub mod port;
    pub mod rust;
    pub mod tally;
}

use frames::recorded::Recordings;
use std::process::exit;
use trips::run::Run;
use writes::again;
use writes::make::Maker;
// the six files name these from the crate's root
#[allow(unused_imports)]
use lc3::{common, encoder, tables};

fn main() {
    let words: Vec<String> = std::env::args().skip(1).collect();
    let (seed, count, folder) = match &words[..] {
        [seed, count] => (seed.parse(), count.parse::<usize>(), None),
        [seed, count, folder] => (seed.parse(), count.parse(), Some(folder.as_str())),
        _ => usage(),
    };
    let (Ok(seed), Ok(count)) = (seed, count) else { usage() };
    records::quiet_panics();
    let recordings = folder.map(|folder| Recordings::of(folder).unwrap_or_else(|why| stop(&why)));
    let mut rewritten = writes::tally::Tally::new(recordings.is_some());
    let real = recordings.map(|r| again::all(r, &mut rewritten).unwrap_or_else(|why| stop(&why)));
    let mut maker = Maker::new(seed, real);
    let mut run = Run::new(seed);
    let mut at = 0;
    while run.tally.frames < maker.real() + count {
        let mut case = maker.sound(at);
        run.is_real = at < maker.real();
        run.trip(&mut case, &maker).unwrap_or_else(|why| stop(&format!("{}: {:?}", why, case)));
        at += 1;
    }
    run.tally.say(seed);
    let missing = run.tally.missing(maker.real() > 0);
    if !missing.is_empty() {
        stop(&format!("seed {}: never occurred: {}", seed, missing.join(", ")));
    }
}

fn usage() -> ! {
    eprintln!("usage: trips SEED COUNT [FOLDER]");
    exit(2)
}

fn stop(why: &str) -> ! {
    eprintln!("trips: {}", why);
    exit(1)
}
