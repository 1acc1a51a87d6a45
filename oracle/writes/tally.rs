// How often each outcome occurred, and which ones have to.

use super::content::{Case, Refused, FIELDS};
use super::make::Kind;
use super::rust::Need;
use std::collections::BTreeMap;

pub struct Tally {
    counts: BTreeMap<String, usize>,
    // a refusal 13 by each field alone
    fields: [usize; FIELDS],
    // accepted records by the frame's length, by configuration, by the residual list's length, by the most escapes of a pair
    lengths: [usize; 401],
    lists: [usize; 401],
    configurations: [usize; 10],
    escapes: [usize; 14],
    real: bool,
}

const EXPECTED: &[&str] = &[
    "accepted",
    "accepted in least-bit mode",
    "by the flat set",
    "by random sets",
    "by sets of cheap pairs",
    "refused 14 by -32768",
    "refused 14 by a line from lastnz on",
    "refused 14, and both causes are there",
    "refused 15",
    "refused 15 in least-bit mode",
    "refused 16",
    "refused 16 in least-bit mode",
    "refused 16 by one bit",
    "accepted, and full to the last bit before what comes late",
    "late bits all sent",
    "late bits cut by room",
    "late bits cut by room in least-bit mode",
    "late bits cut further by the forecast",
    "a late bit 1 is sent, and its sign is cut",
    "the coder has sent nothing",
    "the coder has sent nothing, and 0xFFs wait",
    "no residual bits for nonzero lines",
    "the finishes of the readings part",
    "read back in the standard reading",
    "read back with lowest bits cleared",
    "own frames, read and written again the same",
    "own frames, read and written again with a last late bit 0 for a 1 whose sign has no room",
    "written as a field",
    "written as a field, and the buffer ends with it",
    "as a field refused 13",
    "as a field refused 14",
    "as a field refused 15",
    "as a field refused 16",
    "as a field refused 18",
    "as a field refused 18, before the frame's own refusal",
];

// Where recordings are at hand.
const REAL: &[&str] = &["by the standard's set", "real frames, read and written again the same"];

impl Tally {
    pub fn new(real: bool) -> Self {
        Tally {
            counts: BTreeMap::new(),
            fields: [0; FIELDS],
            lengths: [0; 401],
            lists: [0; 401],
            configurations: [0; 10],
            escapes: [0; 14],
            real,
        }
    }

    // Prints it also if it never occurs.
    pub fn note(&mut self, what: &str) {
        self.counts.entry(what.to_string()).or_insert(0);
    }

    pub fn add(&mut self, what: &str) {
        match self.counts.get_mut(what) {
            Some(count) => *count += 1,
            None => {
                self.counts.insert(what.to_string(), 1);
            }
        }
    }

    fn add_if(&mut self, is_so: bool, what: &str) {
        if is_so {
            self.add(what);
        }
    }

    pub fn count_case(&mut self, kind: Kind) {
        self.add("records");
        self.add(match kind {
            Kind::Standard => "by the standard's set",
            Kind::Flat => "by the flat set",
            Kind::Random => "by random sets",
            Kind::Cheap(_) => "by sets of cheap pairs",
        });
    }

    pub fn count_refused(&mut self, case: &Case, refused: Refused) {
        let c = &case.content;
        let in_mode = if c.least_bits() { " in least-bit mode" } else { "" };
        match refused {
            Refused(13, _) => {
                self.add("refused 13");
                if let Some(field) = case.spoilt {
                    self.fields[field] += 1;
                }
            }
            Refused(14, place) => {
                let least = c.lines[place] == i16::MIN;
                self.add(if least { "refused 14 by -32768" } else { "refused 14 by a line from lastnz on" });
                let fails: Vec<bool> =
                    (0..c.lines.len()).filter(|k| case.line_fails(*k)).map(|k| c.lines[k] == i16::MIN).collect();
                self.add_if(fails.contains(&!least), "refused 14, and both causes are there");
            }
            Refused(number, _) => self.add(&format!("refused {}{}", number, in_mode)),
        }
    }

    // A record that 13 to 15 let pass.
    pub fn count_need(&mut self, case: &Case, need: &Need) {
        let c = &case.content;
        let in_mode = if c.least_bits() { " in least-bit mode" } else { "" };
        if need.bits() > case.bits() {
            self.add(&format!("refused 16{}", in_mode));
            self.add_if(need.bits() == case.bits() + 1, "refused 16 by one bit");
            return;
        }
        self.add(&format!("accepted{}", in_mode));
        self.lengths[case.len] += 1;
        self.lists[c.residual.len()] += 1;
        self.configurations[5 * case.duration + case.fs_ind] += 1;
        let most = c.lines.iter().map(|line| line.unsigned_abs()).max().unwrap_or(0);
        self.escapes[(most.max(2).ilog2() - 1) as usize] += 1;
        let room = case.bits() - need.bits();
        self.add_if(room == 0, "accepted, and full to the last bit before what comes late");
        self.add_if(need.is_empty(), "the coder has sent nothing");
        self.add_if(need.is_empty() && need.state.carry_count > 0, "the coder has sent nothing, and 0xFFs wait");
        self.add_if(!c.least_bits() && c.residual.is_empty() && c.nonzero() > 0, "no residual bits for nonzero lines");
        let (late, [by_forecast, by_reserved]) = (c.late_count(), need.sent(case));
        self.add_if(late > 0 && late == by_forecast, "late bits all sent");
        self.add_if(late > by_reserved, &format!("late bits cut by room{}", in_mode));
        self.add_if(by_reserved > by_forecast, "late bits cut further by the forecast");
        let sign_cut = c.least_bits() && c.late().get(by_reserved).is_some_and(|late| late.is_sign);
        self.add_if(sign_cut && by_reserved > 0, "a late bit 1 is sent, and its sign is cut");
    }

    pub fn count_finish(&mut self, first: &[u8], second: &[u8]) {
        self.add_if(first != second, "the finishes of the readings part");
    }

    pub fn say(&self, seed: u64) {
        println!("writes: seed {}", seed);
        for (what, count) in &self.counts {
            println!("  {:>9} {}", count, what);
        }
        let least = |counts: &[usize]| counts.iter().min().copied().unwrap_or(0);
        println!("  {:>9} refused 13 at least, by each of {} fields alone", least(&self.fields), FIELDS);
        println!("  {:>9} accepted at least, of each length from 20 to 400", least(&self.lengths[20..]));
        println!("  {:>9} accepted at least, of each configuration", least(&self.configurations));
        println!("  {:>9} accepted at least, of each length of the residual list to 400", least(&self.lists));
        println!("  {:>9} accepted at least, of each count of escapes to 13", least(&self.escapes));
    }

    pub fn missing(&self) -> Vec<String> {
        let mut missing: Vec<String> = EXPECTED
            .iter()
            .chain(REAL.iter().filter(|_| self.real))
            .filter(|what| self.counts.get(**what).copied().unwrap_or(0) == 0)
            .map(|what| what.to_string())
            .collect();
        let mut note = |what: &str, from: usize, counts: &[usize]| {
            let never = counts.iter().enumerate().filter(|(_, count)| **count == 0);
            missing.extend(never.map(|(k, _)| format!("{} {}", what, from + k)));
        };
        note("field", 0, &self.fields);
        note("length", 20, &self.lengths[20..]);
        note("configuration", 0, &self.configurations);
        note("residual bits", 0, &self.lists);
        note("escapes", 0, &self.escapes);
        missing
    }
}
