//! The edges of larger packs (document 02, T-06), and how often each was met.

mod seen;

pub use seen::Seen;

use crate::words::MOST_PAGES;
use std::collections::BTreeMap;
use std::fmt::Write;

/// How often at least each edge was met.
const LEAST: u64 = 1;

/// Sizes at both sides of the borders, and the two packs of document 02.
pub const PACKS: [u32; 6] = [16_384, 16_385, 32_768, 32_769, 37_035, MOST_PAGES];

/// Bit pages by position: the first one that smaller volumes do not have, and the last one of all.
pub const SECOND: u32 = 1;
pub const NINTH: u32 = 8;

/// The first page whose number has a high word.
pub const HIGH: u32 = 65_536;

/// The kinds of holder that a page other than the master and the bit file can have.
pub const KINDS: std::ops::RangeInclusive<u32> = 3..=10;

/// Where a format is told to start a bit file of several pages.
#[derive(Clone, Copy, Debug, PartialEq, Eq, PartialOrd, Ord)]
pub enum Start {
    Default,
    First,
    Last,
    /// One page above the last that is right, and page P-1.
    Past,
    End,
}

/// What of a call was above 65,535.
#[derive(Clone, Copy, Debug, PartialEq, Eq, PartialOrd, Ord)]
pub enum High {
    /// The page that has a holder of this kind.
    Holder(u32),
    /// The page of a place told with this rule.
    Place(u32),
    Address,
    Read,
    Write,
    Grow,
    /// The first page of a new contiguous file, and its page count, whose bytes then are above 2^27.
    Run,
    Length,
    /// The pages of a file that is deleted.
    Freed,
    Given,
    Used,
}

#[derive(Clone, Copy, Debug, PartialEq, Eq, PartialOrd, Ord)]
pub enum Edge {
    /// A format of so many pages is done, and the check visits the master and each bit page.
    Fresh(u32),
    Format(Start),
    /// Who holds the bit page at this position; the page behind the last.
    Holds(u32),
    Behind,
    /// Rule 1 with a pointer that names a page of the volume.
    PastEnd,
    /// Rule 8 with a bit page that is not the first.
    Shared,
    /// Rule 9 in this bit page; bits from P on that are set, and no rule is broken.
    WrongBit(u32),
    Beyond,
    /// Rule 10, with unreserved as one bit page would have it.
    OneCounted,
    /// A salvage changed words of this bit page; of several.
    Mended(u32),
    MendedSeveral,
    /// A contiguous file over the end of a bit page's pages, and over all pages of one.
    RunOver,
    RunWhole,
    High(High),
}

impl Edge {
    /// All edges.
    pub fn all() -> Vec<Edge> {
        let mut all: Vec<Edge> = PACKS.map(Edge::Fresh).to_vec();
        all.extend([Start::Default, Start::First, Start::Last, Start::Past, Start::End].map(Edge::Format));
        all.extend([0, SECOND, NINTH].map(Edge::Holds));
        all.extend([Edge::Behind, Edge::PastEnd, Edge::Shared, Edge::Beyond, Edge::OneCounted]);
        all.extend([0, SECOND, NINTH].map(Edge::WrongBit));
        all.extend([SECOND, NINTH].map(Edge::Mended));
        all.extend([Edge::MendedSeveral, Edge::RunOver, Edge::RunWhole]);
        all.extend(KINDS.map(|kind| Edge::High(High::Holder(kind))));
        all.extend((3..=8).map(|rule| Edge::High(High::Place(rule))));
        all.extend([High::Address, High::Read, High::Write, High::Grow, High::Run].map(Edge::High));
        all.extend([High::Length, High::Freed, High::Given, High::Used].map(Edge::High));
        all
    }

    fn words(self) -> String {
        match self {
            Edge::Fresh(pages) => format!("fresh volume of {pages} pages"),
            Edge::Format(Start::Default) => "format of several bit pages by default".to_string(),
            Edge::Format(Start::First) => "format of several bit pages from page 1 on".to_string(),
            Edge::Format(Start::Last) => "format of several bit pages up to page P-1".to_string(),
            Edge::Format(Start::Past) => "format of several bit pages up to page P: 2".to_string(),
            Edge::Format(Start::End) => "format of several bit pages from page P-1 on: 2".to_string(),
            Edge::Holds(position) => format!("who holds the bit page at position {position}"),
            Edge::Behind => "who holds the page behind several bit pages".to_string(),
            Edge::PastEnd => "rule 1, the bit pointer names a page of the volume".to_string(),
            Edge::Shared => "rule 8, a bit page after the first".to_string(),
            Edge::WrongBit(position) => format!("rule 9 in the bit page at position {position} of several"),
            Edge::Beyond => "sound, bits from P on in the last of several bit pages".to_string(),
            Edge::OneCounted => "rule 10, unreserved is P - 2".to_string(),
            Edge::Mended(position) => format!("salvage changed the bit page at position {position}"),
            Edge::MendedSeveral => "salvage changed several bit pages".to_string(),
            Edge::RunOver => "contiguous file over a bit page's end".to_string(),
            Edge::RunWhole => "contiguous file over all pages of a bit page".to_string(),
            Edge::High(high) => format!("above 65,535: {}", high.words()),
        }
    }
}

impl High {
    fn words(self) -> String {
        match self {
            High::Holder(kind) => format!("the page of a holder of kind {kind}"),
            High::Place(rule) => format!("the page of a place, rule {rule}"),
            High::Address => "the page that address gives".to_string(),
            High::Read => "the page that is read".to_string(),
            High::Write => "the page that is written".to_string(),
            High::Grow => "the page that grow gives".to_string(),
            High::Run => "the first page of a contiguous file".to_string(),
            High::Length => "the pages of a contiguous file".to_string(),
            High::Freed => "the pages of a deleted file".to_string(),
            High::Given => "the pages given to a user".to_string(),
            High::Used => "the pages used by a user".to_string(),
        }
    }
}

/// How often each edge was met.
#[derive(Default)]
pub struct PackEdges(BTreeMap<Edge, u64>);

impl PackEdges {
    pub fn met(&mut self, edges: Vec<Edge>) {
        edges.into_iter().for_each(|edge| *self.0.entry(edge).or_default() += 1);
    }

    pub fn times(&self, edge: Edge) -> u64 {
        self.0.get(&edge).copied().unwrap_or(0)
    }

    /// What is demanded: words, how often it was met, and how often at least it must be.
    pub fn demands(&self) -> Vec<(String, u64, u64)> {
        Edge::all().into_iter().map(|edge| (format!("pack: {}", edge.words()), self.times(edge), LEAST)).collect()
    }

    /// A line for each edge.
    pub fn summary(&self) -> String {
        let mut out = format!("{:70}{:>9}\n", "edges of larger packs", "by calls");
        for edge in Edge::all() {
            let _ = writeln!(out, "{:70}{:9}", edge.words(), self.times(edge));
        }
        out
    }
}
