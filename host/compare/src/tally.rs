//! What a run has compared: calls by name and by number, lowest broken rules, volumes by size. A run that met too little of something has
//! shown nothing about it, so there are minimums, and a run below one of them fails.

use crate::calls::{Answer, NAMES};
use crate::converts::ConvertEdges;
use crate::edges::Edges;
use crate::names::NameEdges;
use crate::packs::PackEdges;
use crate::salvages::SalvageEdges;
use crate::script::{Played, Script};
use crate::spots::{Spot, SPOTS};
use crate::steps::StepEdges;
use crate::twice::{pairs, FILE_SUBINDEX};
use std::collections::BTreeMap;
use std::fmt::Write;

/// The numbers that a call can answer: 0 to 14.
pub const NUMBERS: usize = 15;

/// How often at least each of them, each rule 1 to 10, and each rule by damage aimed at it.
const EACH_NUMBER: u64 = 50;
const EACH_RULE: u64 = 200;
const EACH_AIMED: u64 = 50;

/// How often at least each kind of place was told where damage was aimed at it, and each pair of kinds of holder with rule 8.
const EACH_SPOT: u64 = 8;
const EACH_PAIR: u64 = 4;

/// Every call was answered with 0 so often at least; read_page gives no number, its empty and full parts are counted apart.
const EACH_CALL_DONE: u64 = 20;

/// Sizes in pages that a run has on board.
pub const SIZES: [u32; 15] = [8, 9, 16, 17, 32, 154, 512, 1_100, 2_048, 16_384, 16_385, 32_768, 32_769, 37_035, 140_733];

/// Things that a run has met, beyond the numbers.
#[derive(Clone, Copy, PartialEq, Eq, PartialOrd, Ord)]
pub enum Met {
    FilePast512,
    FilePast1024,
    BackTo512,
    UserPast64,
    All256Users,
    All256Files,
    FullVolume,
    RunJustFits,
    RunJustDoesNot,
    ReusedEntry,
    ScatteredVolume,
    PartRead,
    NoPartRead,
    OpensCameRound,
    WideUser,
    WideFile,
    WidePosition,
    WidePage,
    WideCount,
    CountOf0,
    MostCount,
    AboveMost,
    AboveOneBitPage,
    RunWhole,
    RunRefused,
    RunOutOfRoom,
    RunWrongLength,
    RunUnsound,
    FormatWithin,
    FormatOnUnsound,
    NoCall,
    NameOutside,
    TypeOutside,
    DataOutside,
    FirstOfTwo,
    NotByPage,
    TwoPositions,
    OneFileTwice,
    TwoFiles,
    TwoUsers,
    FromZeros,
    FromApostrophe,
    SalvageAsCheck,
    SalvageNotAsCheck,
}

const MINIMUMS: [(Met, &str, u64); 44] = [
    (Met::FilePast512, "files grown past 512 pages", 2),
    (Met::FilePast1024, "files grown past 1,024 pages", 2),
    (Met::BackTo512, "files shrunk back to 512 pages", 2),
    (Met::UserPast64, "users created from 64 up", 20),
    (Met::All256Users, "a user refused with all 256 there", 2),
    (Met::All256Files, "a file refused with all 256 there", 2),
    (Met::FullVolume, "calls on a volume without a free page", 20),
    (Met::RunJustFits, "contiguous files as long as the longest run", 20),
    (Met::RunJustDoesNot, "contiguous files one page longer than any run", 20),
    (Met::ReusedEntry, "entries used again", 20),
    (Met::ScatteredVolume, "volumes that no calls give", 50),
    (Met::PartRead, "pages read", 20),
    (Met::NoPartRead, "empty parts read", 20),
    (Met::OpensCameRound, "opens from 65,535 to 0", 5),
    (Met::WideUser, "users from 2^32 up", 25),
    (Met::WideFile, "files from 2^32 up", 25),
    (Met::WidePosition, "positions from 2^32 up", 25),
    (Met::WidePage, "pages from 2^32 up", 25),
    (Met::WideCount, "counts from 2^32 up", 25),
    (Met::CountOf0, "counts of 0, refused with 2", 20),
    (Met::MostCount, "counts of 140,733, refused with 9, 10 or 11", 20),
    (Met::AboveMost, "counts of 140,734, refused with 2", 20),
    (Met::AboveOneBitPage, "counts of 16,385 on smaller volumes, refused with 9, 10 or 11", 10),
    (Met::RunWhole, "runs with all their steps done", 15),
    (Met::RunRefused, "runs that a refusal stopped before their last step", 50),
    (Met::RunOutOfRoom, "runs with room for fewer replies than steps, all done", 10),
    (Met::RunWrongLength, "runs refused for the length", 8),
    (Met::RunUnsound, "runs refused on an unsound image", 20),
    (Met::FormatWithin, "formats within a run, between steps that were done", 20),
    (Met::FormatOnUnsound, "unsound images that a run formatted, and went on", 5),
    (Met::NoCall, "steps whose number is no call's", 10),
    (Met::NameOutside, "names outside the text lent", 5),
    (Met::TypeOutside, "types outside the text lent", 5),
    (Met::DataOutside, "page data outside the words lent", 3),
    (Met::FirstOfTwo, "one rule broken in two places, one of them told", 200),
    (Met::NotByPage, "one rule broken in two places, the one told on the higher page", 50),
    (Met::TwoPositions, "two holders that differ in their position alone", 20),
    (Met::OneFileTwice, "two holders of one file, of two kinds", 4),
    (Met::TwoFiles, "two holders of one user and two of his files", 20),
    (Met::TwoUsers, "two holders of two users", 20),
    (Met::FromZeros, "volumes of old fill converted there and back", 100),
    (Met::FromApostrophe, "volumes of new fill converted there and back", 100),
    (Met::SalvageAsCheck, "damaged images whose salvage told what the check tells", 1_000),
    (Met::SalvageNotAsCheck, "damaged images that break rule 9 or 10 alone, not refused with 3 by salvage", 200),
];

/// How often at least each number came to a step of a run, and each call that can be one was done as one.
const EACH_STEP_NUMBER: u64 = 2;
const EACH_STEP_DONE: u64 = 10;

/// The row of the steps that are no calls, after those of the calls.
const NO_CALL: usize = NAMES.len();

#[derive(Default)]
pub struct Tally {
    /// For each call, how often it was answered with each number.
    calls: [[u64; NUMBERS]; NAMES.len()],
    /// The same of the steps of runs; the last row is of steps that are no calls.
    made: [[u64; NUMBERS]; NAMES.len() + 1],
    runs: u64,
    /// The lowest rule of the check after each call; 0 is a sound image.
    rules: [u64; 11],
    /// Damage aimed at a rule that this rule was the lowest to see.
    aimed: [u64; 11],
    /// Kinds of place that were told where they were aimed at.
    spots: Vec<u64>,
    /// The kinds of the two holders that were told with rule 8.
    pairs: BTreeMap<(u32, u32), u64>,
    /// Damaged images on which all agreed.
    damaged: u64,
    sizes: BTreeMap<u32, u64>,
    /// The edges of the searches for free pages.
    pub edges: Edges,
    /// The edges of names as they are stored.
    pub names: NameEdges,
    /// The edges of the conversions.
    pub converts: ConvertEdges,
    /// The edges of salvage.
    pub salvages: SalvageEdges,
    /// The edges of larger packs.
    pub packs: PackEdges,
    /// The edges of steps that ask and that salvage.
    pub steps: StepEdges,
    met: BTreeMap<Met, u64>,
}

impl Tally {
    pub fn called(&mut self, which: usize, answer: &Answer, check: &Answer) {
        self.calls[which][answer.number as usize] += 1;
        if check.number != 1 {
            self.rules[check.rule as usize] += 1;
        }
        if NAMES[which] == "read_page" {
            self.met(if answer.length > 0 { Met::PartRead } else { Met::NoPartRead });
        }
    }

    /// A run: each of its steps that was made, with the number of its reply.
    pub fn ran(&mut self, script: &Script, played: &Played) {
        self.runs += 1;
        for (asked, reply) in script.asked.iter().zip(&played.replies).take(played.made) {
            let which = if asked.is_call() { asked.call().which() } else { NO_CALL };
            self.made[which][reply.number as usize] += 1;
        }
        self.steps.ran(script, played);
    }

    pub fn hit(&mut self, rule: u32) {
        self.aimed[rule as usize] += 1;
    }

    /// A damaged image and what its check told.
    pub fn damaged(&mut self, check: &Answer) {
        self.damaged += 1;
        if check.rule == 8 {
            *self.pairs.entry((check.first.kind, check.second.kind)).or_default() += 1;
            holders_met(check).into_iter().for_each(|what| self.met(what));
        }
    }

    /// A kind of place, by its number in the table, that was told.
    pub fn told(&mut self, spot: usize) {
        self.spots.resize(SPOTS.len(), 0);
        self.spots[spot] += 1;
    }

    fn spots_told(&self) -> impl Iterator<Item = (&Spot, u64)> {
        SPOTS.iter().zip(self.spots.iter().copied().chain(std::iter::repeat(0)))
    }

    pub fn damaged_images(&self) -> u64 {
        self.damaged
    }

    pub fn volume(&mut self, pages: u32) {
        *self.sizes.entry(pages).or_default() += 1;
    }

    pub fn met(&mut self, what: Met) {
        *self.met.entry(what).or_default() += 1;
    }

    /// How often something was met.
    pub fn times(&self, what: Met) -> u64 {
        self.met.get(&what).copied().unwrap_or(0)
    }

    pub fn compared(&self) -> u64 {
        self.calls.iter().flatten().sum()
    }

    /// The runs, and the steps that they made.
    pub fn runs_and_steps(&self) -> (u64, u64) {
        (self.runs, self.made.iter().flatten().sum())
    }

    /// What was met too seldom, one line each.
    pub fn too_little(&self) -> Vec<String> {
        let mut short = Vec::new();
        let mut demand = |what: String, met: u64, least: u64| {
            if met < least {
                short.push(format!("{what}: {met}, at least {least} are wanted"));
            }
        };
        (0..NUMBERS).for_each(|n| demand(format!("number {n}"), by_number(&self.calls, n), EACH_NUMBER));
        (0..NUMBERS).for_each(|n| demand(format!("number {n} to a step"), by_number(&self.made, n), EACH_STEP_NUMBER));
        (1..11).for_each(|rule| demand(format!("rule {rule}"), self.rules[rule], EACH_RULE));
        (1..11).for_each(|rule| demand(format!("damage aimed at rule {rule}"), self.aimed[rule], EACH_AIMED));
        for (name, call) in NAMES.iter().zip(&self.calls) {
            demand(format!("{name} done"), call[0], EACH_CALL_DONE);
        }
        for (name, step) in NAMES.iter().zip(&self.made).filter(|(name, _)| can_be_a_step(name)) {
            demand(format!("{name} done as a step"), step[0], EACH_STEP_DONE);
        }
        for (spot, told) in self.spots_told() {
            demand(format!("rule {} told at: {}", spot.rule, spot.words), told, EACH_SPOT);
        }
        for pair in pairs() {
            demand(format!("holders of kinds {} and {}", pair.0, pair.1), self.pairs.get(&pair).copied().unwrap_or(0), EACH_PAIR);
        }
        for pages in SIZES {
            demand(format!("volumes of {pages} pages"), self.sizes.get(&pages).copied().unwrap_or(0), 1);
        }
        for (what, words, least) in MINIMUMS {
            demand(words.to_string(), self.times(what), least);
        }
        let edges = self.edges.demands().into_iter().chain(self.names.demands()).chain(self.converts.demands());
        let edges = edges.chain(self.salvages.demands()).chain(self.packs.demands()).chain(self.steps.demands());
        edges.for_each(|(words, met, least)| demand(words, met, least));
        short
    }

    /// The closing summary.
    pub fn summary(&self) -> String {
        let mut out = table("call \\ number", &NAMES, &self.calls);
        let _ = writeln!(out, "(read_page answers no number: its parts, full and empty, are counted under 0 and below)\n");
        let names: Vec<&str> = NAMES.into_iter().chain(["no call"]).collect();
        out += &table("step \\ number", &names, &self.made);
        let _ = writeln!(out, "\n{:22}   sound{}", "check after a call", (1..11).map(|n| format!("  rule{n:2}")).collect::<String>());
        let _ = writeln!(out, "{:22}{}", "lowest rule", row(&self.rules));
        let _ = writeln!(out, "{:22}{}", "aimed and hit", row(&self.aimed));
        for (spot, told) in self.spots_told() {
            let _ = writeln!(out, "rule {:2} told at: {}: {told}", spot.rule, spot.words);
        }
        let pairs: Vec<String> = self.pairs.iter().map(|((first, second), times)| format!("{first} and {second}: {times}")).collect();
        let _ = writeln!(out, "rule  8 told with holders of kinds {}", pairs.join(", "));
        let _ = writeln!(out, "\nvolumes by pages: {}", self.sizes_in_words());
        for (what, words, _) in MINIMUMS {
            let _ = writeln!(out, "{words}: {}", self.times(what));
        }
        out + "\n"
            + &self.edges.summary()
            + "\n"
            + &self.names.summary()
            + "\n"
            + &self.converts.summary()
            + "\n"
            + &self.salvages.summary()
            + "\n"
            + &self.packs.summary()
            + "\n"
            + &self.steps.summary()
    }

    /// How often each number was answered, and each rule was the lowest broken one: a line for a run of cases.
    pub fn numbers_and_rules(&self) -> String {
        let numbers: Vec<String> = (0..NUMBERS).map(|n| format!("{n}: {}", by_number(&self.calls, n))).collect();
        let rules: Vec<String> = (1..11).map(|rule| format!("{rule}: {}", self.rules[rule])).collect();
        format!("by number {}; by lowest rule {}", numbers.join(", "), rules.join(", "))
    }

    /// How often a salvage was answered with each number.
    pub fn salvaged_in_words(&self) -> String {
        let row = NAMES.iter().position(|name| *name == "salvage").map_or([0; NUMBERS], |which| self.calls[which]);
        let met = (0..NUMBERS).filter(|&number| row[number] > 0).map(|number| format!("{number}: {}", row[number]));
        format!("salvages by number, second ones among them: {}", met.collect::<Vec<String>>().join(", "))
    }

    /// The sizes that every run has, each; the others together.
    fn sizes_in_words(&self) -> String {
        let of = |pages: &u32| format!("{pages}: {}", self.sizes.get(pages).copied().unwrap_or(0));
        let named: Vec<String> = SIZES.iter().map(of).collect();
        let others = self.sizes.iter().filter(|size| !SIZES.contains(size.0));
        let (kinds, volumes) = others.fold((0, 0), |(kinds, volumes), size| (kinds + 1, volumes + size.1));
        format!("{}, {kinds} other sizes: {volumes}", named.join(", "))
    }
}

/// How the two holders of a page are alike.
fn holders_met(check: &Answer) -> Option<Met> {
    let (one, two) = (check.first, check.second);
    let (user, file, kind) = (one.user == two.user, one.file == two.file, one.kind == two.kind);
    if one.kind < FILE_SUBINDEX {
        return (kind && two.position > one.position).then_some(Met::TwoPositions);
    }
    Some(match (user, file, kind) {
        (true, true, true) => Met::TwoPositions,
        (true, true, false) => Met::OneFileTwice,
        (true, false, _) => Met::TwoFiles,
        (false, ..) => Met::TwoUsers,
    })
}

/// Whether a run can make the call of this name.
fn can_be_a_step(name: &str) -> bool {
    name != "check" || second::CHECK_IS_A_STEP
}

fn by_number(rows: &[[u64; NUMBERS]], number: usize) -> u64 {
    rows.iter().map(|row| row[number]).sum()
}

/// A row for each name, and one for all.
fn table(title: &str, names: &[&str], rows: &[[u64; NUMBERS]]) -> String {
    let mut out = format!("{title:22}{}   all\n", (0..NUMBERS).map(|n| format!("{n:8}")).collect::<String>());
    for (name, counts) in names.iter().zip(rows).filter(|(_, counts)| counts.iter().any(|&count| count > 0)) {
        let _ = writeln!(out, "{name:22}{}{:8}", row(counts), counts.iter().sum::<u64>());
    }
    let all: Vec<u64> = (0..NUMBERS).map(|n| by_number(rows, n)).collect();
    let _ = writeln!(out, "{:22}{}{:8}", "all", row(&all), all.iter().sum::<u64>());
    out
}

fn row(counts: &[u64]) -> String {
    counts.iter().map(|&count| if count == 0 { format!("{:>8}", "-") } else { format!("{count:8}") }).collect()
}

#[cfg(test)]
mod tests {
    use super::*;

    /// A run that met nothing is told so for each number, each rule twice, each call, each kind of place and pair of holders, each size,
    /// each edge, and each edge of a search, of a name and of a conversion, most of them twice, and each of salvage, of larger packs and of
    /// steps.
    #[test]
    fn nothing_is_too_little() {
        let steps = NAMES.into_iter().filter(|name| can_be_a_step(name)).count();
        let wanted = NUMBERS + NUMBERS + 10 + 10 + NAMES.len() + steps + SPOTS.len() + pairs().len() + SIZES.len() + MINIMUMS.len();
        let wanted = wanted + Edges::default().demands().len() + NameEdges::default().demands().len();
        let wanted = wanted + ConvertEdges::default().demands().len() + SalvageEdges::default().demands().len();
        let wanted = wanted + PackEdges::default().demands().len() + StepEdges::default().demands().len();
        assert_eq!(Tally::default().too_little().len(), wanted);
    }
}
