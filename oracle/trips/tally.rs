// How often each outcome occurred, and which ones have to.

use super::ways::Way;
use crate::writes::content::Case;
use crate::writes::make::Kind;
use std::collections::BTreeMap;

// What became of a damaged frame; 9 by the pair in which a bit lacks room.
#[derive(Clone, Copy, Debug, PartialEq, Eq, PartialOrd, Ord)]
pub enum Outcome {
    // the frame has no bit of the way's
    Untouched,
    Same,
    List,
    Signs,
    Magnitudes,
    LowMissing(usize),
    SignMissing(usize),
    Negative,
}

impl Outcome {
    fn name(self) -> &'static str {
        match self {
            Outcome::Untouched => "there is nothing to damage",
            Outcome::Same => "accepted, and all is the same",
            Outcome::List => "accepted, and the residual list is another",
            Outcome::Signs => "accepted, and signs are others",
            Outcome::Magnitudes => "accepted, and magnitudes are others within their symbols",
            Outcome::LowMissing(_) => "refused 9 in bit, for a low bit",
            Outcome::SignMissing(_) => "refused 9 in bit, for a sign",
            Outcome::Negative => "refused 12",
        }
    }
}

impl Way {
    pub fn name(self) -> &'static str {
        match self {
            Way::Anything => "anything",
            Way::Signs => "signs and late bits",
            Way::Spare => "unused bits",
            Way::Unused => "unused bits behind the room",
            Way::Lows => "low bits",
        }
    }
}

// Of made frames, in least-bit mode or outside of it.
const EXPECTED_OUTSIDE: &[(Way, &[Outcome])] = &[
    (Way::Anything, &[Outcome::Same, Outcome::List, Outcome::Signs, Outcome::Magnitudes, LOW, SIGN, Outcome::Negative]),
    (Way::Signs, &[Outcome::Same, Outcome::List, Outcome::Signs]),
    (Way::Spare, &[Outcome::Untouched, Outcome::Same, Outcome::List]),
    (Way::Unused, &[Outcome::Untouched, Outcome::Same]),
    (Way::Lows, &[Outcome::Untouched, Outcome::Magnitudes, LOW, SIGN, Outcome::Negative]),
];
const EXPECTED_INSIDE: &[(Way, &[Outcome])] = &[
    (Way::Anything, &[Outcome::Same, Outcome::Signs, Outcome::Magnitudes, LOW, SIGN, Outcome::Negative]),
    (Way::Signs, &[Outcome::Same, Outcome::Signs, Outcome::Magnitudes]),
    (Way::Spare, &[Outcome::Untouched, Outcome::Same]),
    (Way::Unused, &[Outcome::Untouched, Outcome::Same]),
    (Way::Lows, &[Outcome::Untouched, Outcome::Magnitudes, LOW, SIGN, Outcome::Negative]),
];
const LOW: Outcome = Outcome::LowMissing(0);
const SIGN: Outcome = Outcome::SignMissing(0);

// What else has to occur.
const EXPECTED: &[&str] = &[
    "by the flat set",
    "by random sets",
    "by sets of cheap pairs",
    "read back, the list whole",
    "read back, the list cut to the room",
    "read back, with zeros for what the list lacks",
    "read back, with zeros for what the list lacks, up to the room",
    "read back in least-bit mode, the lines whole",
    "read back in least-bit mode, the lines cut at a place",
    "read back, a zero flag",
    "9 in a pair: the pairs before it are read alone, as written",
    "9 in a pair: the pairs before it, alone, are refused 12",
    "damaged, accepted and written again: reads the same",
    "in the crate reading, in least-bit mode: comes back the same",
    "in the crate reading, in least-bit mode: comes back otherwise",
    "in the crate reading: comes back the same",
    "in the crate reading: comes back with a longer list",
];

// Whether a frame is real, the way, whether it is in least-bit mode, the outcome.
type Class = (bool, Way, bool, Outcome);

pub struct Tally {
    counts: BTreeMap<&'static str, usize>,
    damaged: BTreeMap<Class, usize>,
    // written frames by length, by configuration, by the most escapes of a pair
    lengths: [usize; 401],
    configurations: [usize; 10],
    escapes: [usize; 14],
    pub frames: usize,
}

impl Tally {
    pub fn new() -> Self {
        Tally {
            counts: BTreeMap::new(),
            damaged: BTreeMap::new(),
            lengths: [0; 401],
            configurations: [0; 10],
            escapes: [0; 14],
            frames: 0,
        }
    }

    pub fn add(&mut self, what: &'static str) {
        *self.counts.entry(what).or_insert(0) += 1;
    }

    pub fn add_if(&mut self, is_so: bool, what: &'static str) {
        if is_so {
            self.add(what);
        }
    }

    pub fn count_frame(&mut self, case: &Case, kind: Kind, is_real: bool) {
        self.frames += 1;
        self.add(match kind {
            _ if is_real => "real, each the same bytes again but for the exception",
            Kind::Standard => "by the standard's set",
            Kind::Flat => "by the flat set",
            Kind::Random => "by random sets",
            Kind::Cheap(_) => "by sets of cheap pairs",
        });
        let c = &case.content;
        self.lengths[case.len] += 1;
        self.configurations[5 * case.duration + case.fs_ind] += 1;
        let most = (0..c.lastnz() / 2).map(|pair| c.escapes(pair)).max().unwrap_or(0);
        self.escapes[most as usize] += 1;
    }

    // What came back whole, by the room for late bits.
    pub fn count_back(&mut self, case: &Case, room: usize, zero: bool) {
        let c = &case.content;
        self.add_if(zero, "read back, a zero flag");
        if c.least_bits() {
            let is_whole = c.returned(room).lines == c.lines;
            self.add(match is_whole {
                true => "read back in least-bit mode, the lines whole",
                false => "read back in least-bit mode, the lines cut at a place",
            });
            return;
        }
        let (list, nonzero) = (c.residual.len(), c.nonzero());
        self.add(match () {
            _ if list > room => "read back, the list cut to the room",
            _ if list == nonzero => "read back, the list whole",
            _ if nonzero > room => "read back, with zeros for what the list lacks, up to the room",
            _ => "read back, with zeros for what the list lacks",
        });
    }

    pub fn count_damage(&mut self, class: Class) {
        let (is_real, way, least_bits, outcome) = class;
        // by the pair they are too many to count
        let outcome = match outcome {
            Outcome::LowMissing(_) => LOW,
            Outcome::SignMissing(_) => SIGN,
            other => other,
        };
        *self.damaged.entry((is_real, way, least_bits, outcome)).or_insert(0) += 1;
    }

    pub fn say(&self, seed: u64) {
        println!("trips: seed {}", seed);
        println!("  {:>9} frames written and read back", self.frames);
        for (what, count) in &self.counts {
            println!("  {:>9} {}", count, what);
        }
        for (class, count) in &self.damaged {
            println!("  {:>9} {}", count, named(*class));
        }
        let least = |counts: &[usize]| counts.iter().min().copied().unwrap_or(0);
        println!("  {:>9} frames at least, of each length from 20 to 400", least(&self.lengths[20..]));
        println!("  {:>9} frames at least, of each configuration", least(&self.configurations));
        println!("  {:>9} frames at least, of each count of escapes to 13", least(&self.escapes));
    }

    pub fn missing(&self, real: bool) -> Vec<String> {
        let real = if real { Some("by the standard's set") } else { None };
        let never = |what: &&str| !self.counts.contains_key(*what);
        let mut missing: Vec<String> =
            EXPECTED.iter().copied().chain(real).filter(never).map(|what| what.to_string()).collect();
        for (least_bits, expected) in [(false, EXPECTED_OUTSIDE), (true, EXPECTED_INSIDE)] {
            let classes = expected.iter().flat_map(|(way, outcomes)| outcomes.iter().map(|outcome| (*way, *outcome)));
            let classes = classes.map(|(way, outcome)| (false, way, least_bits, outcome));
            missing.extend(classes.filter(|class| !self.damaged.contains_key(class)).map(named));
        }
        let mut note = |what: &str, from: usize, counts: &[usize]| {
            let never = counts.iter().enumerate().filter(|(_, count)| **count == 0);
            missing.extend(never.map(|(k, _)| format!("{} {}", what, from + k)));
        };
        note("length", 20, &self.lengths[20..]);
        note("configuration", 0, &self.configurations);
        note("escapes", 0, &self.escapes);
        missing
    }
}

fn named((is_real, way, least_bits, outcome): Class) -> String {
    let whose = if is_real { "real frames" } else { "frames" };
    let mode = if least_bits { " in least-bit mode" } else { "" };
    format!("{}{} damaged in {}: {}", whose, mode, way.name(), outcome.name())
}
