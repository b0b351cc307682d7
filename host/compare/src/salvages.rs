//! The edges of salvage (document 02, T-05), and how often each was met.

mod aims;
mod seen;

pub use aims::{Aimed, Aims, Room};
pub use seen::Seen;

use crate::scattered::Beyond;
use crate::stale::Half;
use std::collections::BTreeMap;
use std::fmt::Write;

/// How often at least each edge was met.
const LEAST: u64 = 4;

/// A count that salvage sets.
#[derive(Clone, Copy, Debug, PartialEq, Eq, PartialOrd, Ord)]
pub enum Count {
    Unreserved,
    Used,
}

/// The shape of a file whose pages a used count is of.
#[derive(Clone, Copy, Debug, PartialEq, Eq, PartialOrd, Ord)]
pub enum Shape {
    Contiguous,
    Indexed,
    Subindexed,
}

/// The bits from P on in the word that holds P.
#[derive(Clone, Copy, Debug, PartialEq, Eq, PartialOrd, Ord)]
pub enum Rest {
    Zeros,
    Ones,
    Mixed,
}

#[derive(Clone, Copy, Debug, PartialEq, Eq, PartialOrd, Ord)]
pub enum Edge {
    /// Done: nothing changed, with room for changes or with none; one word changed.
    Nothing(bool),
    One,
    /// Done: as many changes as there is room for, or fewer.
    Enough,
    Spare,
    /// Done: these halves of a count changed, and no other word of it.
    Halves(Count, Half),
    /// Done: a used count was above given.
    AboveGiven,
    /// Done: a bit was set, a bit was cleared.
    Set,
    Cleared,
    /// Done: the word that holds P changed, with such bits from P on; or 16 divides P, and the last word changed, with bits in the one behind it.
    WordOfP(Rest),
    LastWord,
    /// Done: words changed on a volume of so many pages.
    Pages(u32),
    /// Done: a used count and bits changed, the user's page before or behind the bit page; and unreserved with both.
    UserPage(bool),
    AllThree,
    /// Done: the used count of a user on a later page of his file; of two users, the later one's first, as its page is lower.
    LaterUser,
    LaterFirst,
    /// Done: words changed where the object file is subindexed; a used count of a user who has such a file.
    SubindexedObjects,
    Holding(Shape),
    /// Done: words changed, and an unused entry has counts, which stay.
    Unused,
    /// Done, just not 13: nothing is left unreserved; a user holds all that he was given.
    NothingLeft,
    AllGiven,
    /// Done, and a second salvage changed nothing.
    Again,
    /// 13 by a user, by the sum, by both; with a list that would be too short, too.
    Overdrawn {
        user: bool,
        sum: bool,
    },
    OverdrawnShort,
    /// 14: room for one change too few; for none.
    OneTooFew,
    NoRoom,
    /// 3: the rule, and whether a used count was above given; without room for a change.
    Unsound(u32, bool),
    UnsoundNoRoom,
    /// 1.
    Length,
}

impl Edge {
    /// All edges.
    pub fn all() -> Vec<Edge> {
        let mut all = vec![Edge::Nothing(false), Edge::Nothing(true), Edge::One, Edge::Enough, Edge::Spare];
        for count in [Count::Unreserved, Count::Used] {
            all.extend(Half::ALL.map(|half| Edge::Halves(count, half)));
        }
        all.extend([Edge::AboveGiven, Edge::Set, Edge::Cleared]);
        all.extend([Rest::Zeros, Rest::Ones, Rest::Mixed].map(Edge::WordOfP));
        all.extend([Edge::LastWord, Edge::Pages(8), Edge::Pages(16_384), Edge::UserPage(true), Edge::UserPage(false)]);
        all.extend([Edge::AllThree, Edge::LaterUser, Edge::LaterFirst, Edge::SubindexedObjects]);
        all.extend([Shape::Contiguous, Shape::Indexed, Shape::Subindexed].map(Edge::Holding));
        all.extend([Edge::Unused, Edge::NothingLeft, Edge::AllGiven, Edge::Again]);
        all.extend([(true, false), (false, true), (true, true)].map(|(user, sum)| Edge::Overdrawn { user, sum }));
        all.extend([Edge::OverdrawnShort, Edge::OneTooFew, Edge::NoRoom]);
        all.extend((1..=8).flat_map(|rule| [false, true].map(|above| Edge::Unsound(rule, above))));
        all.extend([Edge::UnsoundNoRoom, Edge::Length]);
        all.retain(|edge| edge.can_be());
        all
    }

    /// Whether it can be met. With rules 1 to 3 no user is seen, so nothing is above given.
    fn can_be(&self) -> bool {
        !matches!(self, Edge::Unsound(1..=3, true))
    }

    fn words(self) -> String {
        let side = |before| if before { "before" } else { "behind" };
        match self {
            Edge::Nothing(room) => format!("done, nothing changed, with {} for changes", if room { "room" } else { "no room" }),
            Edge::One => "done, one word changed".to_string(),
            Edge::Enough => "done, with room for just the changes".to_string(),
            Edge::Spare => "done, with room for more changes".to_string(),
            Edge::Halves(Count::Unreserved, half) => format!("done, of unreserved {}", half.words()),
            Edge::Halves(Count::Used, half) => format!("done, of a used count {}", half.words()),
            Edge::AboveGiven => "done, a used count was above given".to_string(),
            Edge::Set => "done, a bit set".to_string(),
            Edge::Cleared => "done, a bit cleared".to_string(),
            Edge::WordOfP(rest) => format!("done, the word that holds P changed, bits from P on: {}", rest.words()),
            Edge::LastWord => "done, the last word changed, 16 divides P, bits behind it".to_string(),
            Edge::Pages(pages) => format!("done, words changed on a volume of {pages} pages"),
            Edge::UserPage(before) => format!("done, used count and bits, the user's page {} the bits", side(before)),
            Edge::AllThree => "done, unreserved, used count and bits".to_string(),
            Edge::LaterUser => "done, used count on a later user page".to_string(),
            Edge::LaterFirst => "done, used counts of two users, the later one's page first".to_string(),
            Edge::SubindexedObjects => "done, words changed, object file subindexed".to_string(),
            Edge::Holding(shape) => format!("done, used count of a user with {} file", shape.words()),
            Edge::Unused => "done, words changed, an unused entry has counts".to_string(),
            Edge::NothingLeft => "done, nothing left unreserved".to_string(),
            Edge::AllGiven => "done, a user holds all that he was given".to_string(),
            Edge::Again => "done, and a second one changed nothing".to_string(),
            Edge::Overdrawn { user, sum } => {
                format!("13 by {}", ["", "a user", "the sum", "both"][usize::from(user) + 2 * usize::from(sum)])
            }
            Edge::OverdrawnShort => "13, the list too short as well".to_string(),
            Edge::OneTooFew => "14, room for one change too few".to_string(),
            Edge::NoRoom => "14, room for no change".to_string(),
            Edge::Unsound(rule, true) => format!("3 by rule {rule}, a used count above given"),
            Edge::Unsound(rule, false) => format!("3 by rule {rule}"),
            Edge::UnsoundNoRoom => "3, room for no change".to_string(),
            Edge::Length => "1".to_string(),
        }
    }
}

impl Shape {
    fn words(self) -> &'static str {
        match self {
            Shape::Contiguous => "a contiguous",
            Shape::Indexed => "an indexed",
            Shape::Subindexed => "a subindexed",
        }
    }
}

impl Rest {
    fn words(self) -> &'static str {
        match self {
            Rest::Zeros => "all 0",
            Rest::Ones => "all 1",
            Rest::Mixed => "of both",
        }
    }

    /// The bits from P on of the word that holds P.
    fn of(word: u16, pages: u32) -> Rest {
        let from = word >> (pages % 16);
        match from {
            0 => Rest::Zeros,
            _ if from == u16::MAX >> (pages % 16) => Rest::Ones,
            _ => Rest::Mixed,
        }
    }

    fn beyond(self) -> Beyond {
        match self {
            Rest::Zeros => Beyond::Zeros,
            Rest::Ones => Beyond::Ones,
            Rest::Mixed => Beyond::Chance,
        }
    }
}

/// How often each edge was met.
#[derive(Default)]
pub struct SalvageEdges(BTreeMap<Edge, u64>);

impl SalvageEdges {
    /// Counts each edge that was met once.
    pub fn met(&mut self, mut edges: Vec<Edge>) {
        edges.sort_unstable();
        edges.dedup();
        edges.into_iter().for_each(|edge| *self.0.entry(edge).or_default() += 1);
    }

    pub fn times(&self, edge: Edge) -> u64 {
        self.0.get(&edge).copied().unwrap_or(0)
    }

    /// What is demanded: words, how often it was met, and how often at least it must be.
    pub fn demands(&self) -> Vec<(String, u64, u64)> {
        Edge::all().into_iter().map(|edge| (format!("salvage {}", edge.words()), self.times(edge), LEAST)).collect()
    }

    /// A line for each edge.
    pub fn summary(&self) -> String {
        self.lines(Edge::all())
    }

    /// A line for each edge that was met.
    pub fn summary_of_met(&self) -> String {
        self.lines(Edge::all().into_iter().filter(|&edge| self.times(edge) > 0).collect())
    }

    fn lines(&self, edges: Vec<Edge>) -> String {
        let mut out = format!("{:70}{:>9}\n", "edges of salvage", "by calls");
        for edge in edges {
            let _ = writeln!(out, "{:70}{:9}", edge.words(), self.times(edge));
        }
        out
    }
}
