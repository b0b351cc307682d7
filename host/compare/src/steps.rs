//! The edges of the steps that ask who holds a page, that read a page and that salvage, and how often each was met in a run.

use crate::calls::{Answer, Call};
use crate::lists::lent;
use crate::script::{Asked, Played, Script};
use crate::twice::FILE_SUBINDEX;
use std::collections::BTreeMap;
use std::fmt::Write;

/// How often at least each edge was met.
const LEAST: u64 = 8;

/// The kinds of holder, from free to a file's data page.
const KINDS: u32 = 11;

#[derive(Clone, Copy, Debug, PartialEq, Eq, PartialOrd, Ord)]
pub enum Edge {
    /// Who holds: done, a holder of this kind; refused with this number.
    Holds(u32),
    HoldsRefused(u32),
    /// Read page: done; refused with this number.
    Read,
    ReadRefused(u32),
    /// Salvage: done as the first step with changes, or with none; done behind other steps, where it has none to tell.
    Changed,
    Unchanged,
    Within,
    /// Salvage: done with changes, and the list had just their room, or more; and a step behind it was done.
    Enough,
    Spare,
    WentOn,
    /// Salvage: refused with this number; with 14, by one change too few.
    SalvageRefused(u32),
    OneTooFew,
    /// No salvage was done, and there was a list: it is as it was lent.
    Left,
}

impl Edge {
    pub fn all() -> Vec<Edge> {
        let mut all: Vec<Edge> = (0..KINDS).map(Edge::Holds).collect();
        all.extend([1, 2, 3].map(Edge::HoldsRefused));
        all.push(Edge::Read);
        all.extend([1, 2, 3, 4].map(Edge::ReadRefused));
        all.extend([Edge::Changed, Edge::Unchanged, Edge::Within, Edge::Enough, Edge::Spare, Edge::WentOn]);
        all.extend([1, 3, 13, 14].map(Edge::SalvageRefused));
        all.extend([Edge::OneTooFew, Edge::Left]);
        all
    }

    fn words(self) -> String {
        match self {
            Edge::Holds(0) => "who holds: free".to_string(),
            Edge::Holds(kind) => {
                format!("who holds: kind {kind}, {}", if kind < FILE_SUBINDEX { "the system" } else { "a file" })
            }
            Edge::HoldsRefused(number) => format!("who holds: {number}"),
            Edge::Read => "read page: done".to_string(),
            Edge::ReadRefused(number) => format!("read page: {number}"),
            Edge::Changed => "salvage first: done, words changed".to_string(),
            Edge::Unchanged => "salvage first: done, nothing changed".to_string(),
            Edge::Within => "salvage behind other steps: done, nothing changed".to_string(),
            Edge::Enough => "salvage: done, with room for just the changes".to_string(),
            Edge::Spare => "salvage: done, with room for more changes".to_string(),
            Edge::WentOn => "salvage: words changed, and the step behind it done".to_string(),
            Edge::SalvageRefused(number) => format!("salvage: {number}"),
            Edge::OneTooFew => "salvage: 14, room for one change too few".to_string(),
            Edge::Left => "a list that no salvage wrote to".to_string(),
        }
    }

    /// What a step met by its reply.
    fn of_step(call: &Call, first: bool, reply: &Answer) -> Option<Edge> {
        Some(match (call, reply.number) {
            (Call::WhoHolds { .. }, 0) => Edge::Holds(reply.first.kind),
            (Call::WhoHolds { .. }, number) => Edge::HoldsRefused(number),
            (Call::ReadPage { .. }, 0) => Edge::Read,
            (Call::ReadPage { .. }, number) => Edge::ReadRefused(number),
            (Call::Salvage { .. }, 0) if !first => Edge::Within,
            (Call::Salvage { .. }, 0) if reply.value == 0 => Edge::Unchanged,
            (Call::Salvage { .. }, 0) => Edge::Changed,
            (Call::Salvage { .. }, number) => Edge::SalvageRefused(number),
            _ => return None,
        })
    }
}

/// What a salvage as the first step of a run met by its list and by the step behind it.
fn of_changes(script: &Script, played: &Played) -> Vec<Edge> {
    let changes = match (script.asked.first(), played.replies.first()) {
        (Some(Asked::Salvage), Some(Answer { number: 0, value, .. })) if played.made > 0 => *value as usize,
        _ => return Vec::new(),
    };
    if changes == 0 {
        return Vec::new();
    }
    let goes_on = played.made > 1 && played.replies[1].number == 0;
    let room = if changes == script.list { Edge::Enough } else { Edge::Spare };
    [room].into_iter().chain(goes_on.then_some(Edge::WentOn)).collect()
}

/// How often each edge was met.
#[derive(Default)]
pub struct StepEdges(BTreeMap<Edge, u64>);

impl StepEdges {
    pub fn met(&mut self, edge: Edge) {
        *self.0.entry(edge).or_default() += 1;
    }

    /// What a run met.
    pub fn ran(&mut self, script: &Script, played: &Played) {
        let made = script.asked.iter().zip(&played.replies).take(played.made).enumerate();
        let calls = made.filter(|(_, (asked, _))| asked.is_call());
        let edges: Vec<Edge> = calls.filter_map(|(n, (asked, reply))| Edge::of_step(asked.call(), n == 0, reply)).collect();
        edges.into_iter().chain(of_changes(script, played)).for_each(|edge| self.met(edge));
        if played.made > 0 && script.list > 0 && played.list == lent(script.list) {
            self.met(Edge::Left);
        }
    }

    fn times(&self, edge: Edge) -> u64 {
        self.0.get(&edge).copied().unwrap_or(0)
    }

    /// What is demanded: words, how often it was met, and how often at least it must be.
    pub fn demands(&self) -> Vec<(String, u64, u64)> {
        Edge::all().into_iter().map(|edge| (format!("in a run, {}", edge.words()), self.times(edge), LEAST)).collect()
    }

    /// A line for each edge.
    pub fn summary(&self) -> String {
        let mut out = format!("{:70}{:>9}\n", "edges of asking and of salvage in a run", "by steps");
        for edge in Edge::all() {
            let _ = writeln!(out, "{:70}{:9}", edge.words(), self.times(edge));
        }
        out
    }
}

#[cfg(test)]
mod tests {
    use super::*;
    use crate::lists::written;
    use crate::random::Random;
    use crate::rounds::Round;
    use crate::tally::Tally;
    use proved::{Change, Holder};

    /// The edges that a run of a salvage and a question met, which told one change in a list of so much room.
    fn met(list: usize, holds: Answer) -> Vec<Edge> {
        let asked = vec![Asked::Salvage, Asked::Call(Call::WhoHolds { page: 5 }), Asked::Salvage];
        let salvaged = Answer { value: 1, ..Answer::default() };
        let made = if holds.number == 0 { 3 } else { 2 };
        let played = Played { made, replies: vec![salvaged, holds, Answer::default()], list: written(list, &[Change::default()]) };
        let mut edges = StepEdges::default();
        edges.ran(&Script { room: 3, list, asked }, &played);
        Edge::all().into_iter().filter(|&edge| edges.times(edge) == 1).collect()
    }

    /// What is not done, not first or not just enough is not counted as such.
    #[test]
    fn a_run_met_what_its_replies_tell() {
        let holder = Answer { first: Holder { kind: 10, ..Holder::default() }, ..Answer::default() };
        assert_eq!(met(1, holder), [Edge::Holds(10), Edge::Changed, Edge::Within, Edge::Enough, Edge::WentOn]);
        let refused = Answer { number: 2, ..Answer::default() };
        assert_eq!(met(2, refused), [Edge::HoldsRefused(2), Edge::Changed, Edge::Spare]);
    }

    /// A few rounds meet every edge.
    #[test]
    fn edges_are_met() {
        let mut tally = Tally::default();
        for (n, pages) in (0..8).zip([8, 20, 60, 90].into_iter().cycle()) {
            let mut round = Round { random: Random::of_round(24, n), tally: &mut tally };
            assert!(round.asking_scripts(pages).is_ok());
            assert!(round.salvage_scripts(pages, 3).is_ok());
            assert!(round.damaged_scripts(pages, 1).is_ok());
        }
        assert!(Round { random: Random::of_round(24, 8), tally: &mut tally }.asking_scripts(600).is_ok());
        let never: Vec<Edge> = Edge::all().into_iter().filter(|&edge| tally.steps.times(edge) == 0).collect();
        assert_eq!(never, []);
    }
}
