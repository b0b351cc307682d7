//! The edges of the two conversions (document 02, T-04), and how often each was met: by single calls, and by steps of runs.

mod aims;
mod seen;
mod way;

pub use aims::{Aimed, Aims};
pub use seen::{series, Seen};
pub use way::{all_filled, Way};

use crate::edges::By;
use crate::fills::{End, Fill};
use crate::names::What;
use std::collections::BTreeMap;
use std::fmt::Write;

/// How often at least each edge was met by single calls, and by steps of runs.
const LEAST: [u64; 2] = [4, 4];

#[derive(Clone, Copy, Debug, PartialEq, Eq, PartialOrd, Ord)]
pub enum Edge {
    /// Done: names or types were converted, or none is short and nothing changed.
    Changed,
    Nothing,
    /// Done: one of so many bytes was converted; one of all bytes of its field stayed, and others were converted.
    Converted(What, usize),
    Full(What),
    /// Done: an entry was converted that lies on a page after the first of its file, or under an index block after the first.
    Later(What),
    LaterBlock,
    /// Done: an unused entry has a name in the fill that the call starts from, or another one that would have stood in the way; it stayed.
    Unused(What, bool),
    /// 12: one alone stands in the way, filled up so; and it is the only short one, or on a page after the first of its file.
    InTheWay(What, Fill),
    OnlyShort(What),
    LaterInTheWay(What),
    /// 12: there are both fills and no leftovers; or all that are short were converted already.
    Mixed,
    Again,
    /// 3: the rule, and whether a short one is not in the fill that the call starts from.
    Unsound(u32, bool),
    /// 1.
    Length,
    /// One call after the other: there and back with the same words; twice the same way, which is refused; after a call that wrote a name,
    /// which stands in the way of an old volume's conversion; and between two calls that were done.
    ThereAndBack,
    Twice,
    Wrote,
    Between,
}

/// The names of the volume, of users and of files, and types.
const ALL: [What; 4] = [What::Volume, What::User, What::File, What::Type];

/// Whose entries there are.
const ENTRIES: [What; 2] = [What::User, What::File];

impl Edge {
    /// All edges of a direction.
    pub fn all(way: Way) -> Vec<Edge> {
        let mut all = vec![Edge::Changed, Edge::Nothing, Edge::LaterBlock, Edge::Mixed, Edge::Again, Edge::Length];
        all.extend([Edge::ThereAndBack, Edge::Twice, Edge::Wrote, Edge::Between]);
        for what in ALL {
            all.extend((what.least()..what.bytes()).map(|length| Edge::Converted(what, length)));
            all.extend(wrong_fills(way).map(|fill| Edge::InTheWay(what, fill)));
            all.extend([Edge::Full(what), Edge::OnlyShort(what)]);
        }
        for what in ENTRIES {
            all.extend([Edge::Later(what), Edge::LaterInTheWay(what), Edge::Unused(what, true), Edge::Unused(what, false)]);
        }
        all.extend((1..=10).flat_map(|rule| [true, false].map(|wrong| Edge::Unsound(rule, wrong))));
        all
    }

    /// The kind of edge in words, by which the summary puts them together.
    fn kind(self) -> &'static str {
        match self {
            Edge::Changed => "done, names converted",
            Edge::Nothing => "done, nothing short, nothing changed",
            Edge::Converted(..) => "converted, of each length",
            Edge::Full(_) => "no fill, which stays beside those converted",
            Edge::Later(_) => "converted on a later page of its file",
            Edge::LaterBlock => "converted under a later index block",
            Edge::Unused(..) => "unused entry with a name, which stays",
            Edge::InTheWay(..) => "12, one alone in the way, filled up in each way",
            Edge::OnlyShort(_) => "12, the only short one in the way",
            Edge::LaterInTheWay(_) => "12, one alone in the way on a later page",
            Edge::Mixed => "12, both fills and no leftovers",
            Edge::Again => "12, all converted already",
            Edge::Unsound(..) => "3 by each rule, in the right and in the wrong fill",
            Edge::Length => "1",
            Edge::ThereAndBack => "there and back, the same words",
            Edge::Twice => "twice the same way, 12",
            Edge::Wrote => "after a call that wrote a name",
            Edge::Between => "between two calls that were done",
        }
    }

    fn words(self) -> String {
        let of = match self {
            Edge::Converted(what, length) => format!("{} of {length} bytes", what.words()),
            Edge::Full(what) | Edge::Later(what) | Edge::OnlyShort(what) | Edge::LaterInTheWay(what) => what.words().to_string(),
            Edge::Unused(what, true) => format!("{}, in the fill to start from", what.words()),
            Edge::Unused(what, false) => format!("{}, in another fill", what.words()),
            Edge::InTheWay(what, fill) => format!("{}, {}", what.words(), fill.words()),
            Edge::Unsound(rule, wrong) => format!("rule {rule}, in the {} fill", if wrong { "wrong" } else { "right" }),
            _ => return self.kind().to_string(),
        };
        format!("{}: {of}", self.kind())
    }
}

/// The fills that stand in the way of a conversion.
fn wrong_fills(way: Way) -> [Fill; 3] {
    [way.to(), Fill::Left(End::Apostrophe), Fill::Left(End::Zero)]
}

/// How often each edge of each direction was met, by calls and by steps.
#[derive(Default)]
pub struct ConvertEdges(BTreeMap<(Way, Edge), [u64; 2]>);

impl ConvertEdges {
    /// Counts each edge that was met once.
    pub fn met(&mut self, by: By, way: Way, mut edges: Vec<Edge>) {
        edges.sort_unstable();
        edges.dedup();
        edges.into_iter().for_each(|edge| self.0.entry((way, edge)).or_default()[by as usize] += 1);
    }

    fn times(&self, way: Way, edge: Edge) -> [u64; 2] {
        self.0.get(&(way, edge)).copied().unwrap_or_default()
    }

    /// What is demanded: words, how often it was met, and how often at least it must be.
    pub fn demands(&self) -> Vec<(String, u64, u64)> {
        let of = |(way, edge): (Way, Edge)| {
            let [calls, steps] = self.times(way, edge);
            let name = |by: &str| format!("{} by a {by}: {}", way.words(), edge.words());
            [(name("call"), calls, LEAST[0]), (name("step"), steps, LEAST[1])]
        };
        Way::ALL.into_iter().flat_map(|way| Edge::all(way).into_iter().map(move |edge| (way, edge))).flat_map(of).collect()
    }

    /// A line for each kind of edge of each direction: how many there are, and how often the one that was met least.
    pub fn summary(&self) -> String {
        let mut out = String::new();
        for way in Way::ALL {
            let mut kinds: Vec<(&str, usize, [u64; 2])> = Vec::new();
            for edge in Edge::all(way) {
                let met = self.times(way, edge);
                match kinds.iter_mut().find(|kind| kind.0 == edge.kind()) {
                    None => kinds.push((edge.kind(), 1, met)),
                    Some((_, edges, least)) => (*edges, *least) = (*edges + 1, [0, 1].map(|by: usize| least[by].min(met[by]))),
                }
            }
            let title = format!("edges of {}, the least of each kind", way.words());
            let _ = writeln!(out, "{title:56}{:>9}{:>9}{:>9}", "edges", "by calls", "by steps");
            for (words, edges, [calls, steps]) in kinds {
                let _ = writeln!(out, "{words:56}{edges:9}{calls:9}{steps:9}");
            }
        }
        out
    }
}
