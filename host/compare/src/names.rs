//! The edges of names and types as they are stored (document 02, T-03), and how often each was met: by single calls, and by steps of runs.

mod aims;
mod fields;
mod seen;

pub use aims::Aims;
pub use fields::{Field, What};
pub use seen::Seen;

use crate::calls::NAMES;
use crate::edges::By;
use crate::fills::{End, Fill};
use crate::script::Part;
use std::collections::BTreeMap;
use std::fmt::Write;

/// How often at least each edge was met by single calls, and by steps of runs.
const LEAST: [u64; 2] = [4, 4];

/// Calls by their places in `calls::NAMES`.
const FIND_USER: usize = 1;
const FIND_FILE: usize = 2;
const FORMAT: usize = 6;
const FORMAT_DEFAULT: usize = 7;
const CREATE_USER: usize = 8;
const DELETE_USER: usize = 9;
const GIVE: usize = 10;
const TAKE: usize = 11;
const CREATE_INDEXED: usize = 12;
const CREATE_CONTIGUOUS: usize = 13;
const GROW: usize = 14;
const SHRINK: usize = 15;
const DELETE_FILE: usize = 16;
const WRITE_PAGE: usize = 17;
const NOTE_OPEN: usize = 18;

/// A byte that may stand behind the end: one of a legal name, a small letter, an end, one of the upper half, or another.
#[derive(Clone, Copy, Debug, PartialEq, Eq, PartialOrd, Ord)]
pub enum Byte {
    Legal,
    Small,
    Apostrophe,
    ZeroThenMore,
    Upper,
    Other,
}

/// What is wrong before the end: no byte at all, a small letter, a byte that is not legal in the last place of a full field, one whose number
/// is next to the apostrophe's, or one that is an end but for its highest bit.
#[derive(Clone, Copy, Debug, PartialEq, Eq, PartialOrd, Ord)]
pub enum Fault {
    First(End),
    Small,
    Last,
    Next,
    Upper,
}

#[derive(Clone, Copy, Debug, PartialEq, Eq, PartialOrd, Ord)]
pub enum Edge {
    /// On a sound image a field is filled up so, ends so in this place, or has such a byte behind its end.
    Filled(What, Fill),
    Ends(What, End, usize),
    Behind(What, Byte),
    /// Of two names of a sound image the one is how the other begins, and has leftovers behind it.
    Begins(What),
    /// A rule was told for what is wrong so.
    Told(What, Fault),
    /// A rule was told as two are equal; the fills of their names or types differ.
    Equal(What),
    /// A find found what is filled up so, and a create was refused for it.
    Found(What, Fill),
    Taken(usize, What, Fill),
    /// A call was refused for an end in its name or type.
    Argument(usize, Part, End),
    /// A call wrote a name or type of so many bytes.
    Written(usize, Part, usize),
    /// A call was done on an entry with leftovers: they stayed, or were cleared with it.
    Kept(usize, What),
    Cleared(usize, What),
    /// Leftovers were not listed.
    Listed(What),
}

/// The names of the volume, of users and of files; a type may be empty.
const ALL: [What; 4] = [What::Volume, What::User, What::File, What::Type];

/// What each call keeps of the entries that it works on.
const KEPT: [(usize, What); 20] = [
    (GIVE, What::Volume),
    (GIVE, What::User),
    (TAKE, What::Volume),
    (TAKE, What::User),
    (CREATE_USER, What::Volume),
    (DELETE_USER, What::Volume),
    (CREATE_INDEXED, What::Volume),
    (CREATE_CONTIGUOUS, What::User),
    (DELETE_FILE, What::User),
    (GROW, What::User),
    (GROW, What::File),
    (GROW, What::Type),
    (SHRINK, What::User),
    (SHRINK, What::File),
    (SHRINK, What::Type),
    (WRITE_PAGE, What::File),
    (WRITE_PAGE, What::Type),
    (NOTE_OPEN, What::User),
    (NOTE_OPEN, What::File),
    (NOTE_OPEN, What::Type),
];

const CLEARED: [(usize, What); 3] = [(DELETE_USER, What::User), (DELETE_FILE, What::File), (DELETE_FILE, What::Type)];

/// Calls that take a name, and those of them that take a type; calls that write them.
const NAMED: [usize; 7] = [FIND_USER, FIND_FILE, FORMAT, FORMAT_DEFAULT, CREATE_USER, CREATE_INDEXED, CREATE_CONTIGUOUS];
const TYPED: [usize; 3] = [FIND_FILE, CREATE_INDEXED, CREATE_CONTIGUOUS];
const WRITING: [usize; 5] = [FORMAT, FORMAT_DEFAULT, CREATE_USER, CREATE_INDEXED, CREATE_CONTIGUOUS];

impl Edge {
    /// All edges.
    pub fn all() -> Vec<Edge> {
        let mut all: Vec<Edge> = ALL.into_iter().flat_map(Edge::of_field).collect();
        all.extend([What::User, What::File, What::Type].into_iter().flat_map(|what| [Edge::Begins(what), Edge::Equal(what)]));
        for fill in Fill::ALL {
            all.extend([What::User, What::File, What::Type].map(|what| Edge::Found(what, fill)));
            all.push(Edge::Taken(CREATE_USER, What::User, fill));
            for call in [CREATE_INDEXED, CREATE_CONTIGUOUS] {
                all.extend([What::File, What::Type].map(|what| Edge::Taken(call, what, fill)));
            }
        }
        for end in End::ALL {
            all.extend(NAMED.map(|call| Edge::Argument(call, Part::Name, end)));
            all.extend(TYPED.map(|call| Edge::Argument(call, Part::Type, end)));
        }
        all.extend((1..=16).flat_map(|length| WRITING.map(|call| Edge::Written(call, Part::Name, length))));
        all.extend((0..=4).flat_map(|length| [CREATE_INDEXED, CREATE_CONTIGUOUS].map(|call| Edge::Written(call, Part::Type, length))));
        all.extend(KEPT.map(|(call, what)| Edge::Kept(call, what)));
        all.extend(CLEARED.map(|(call, what)| Edge::Cleared(call, what)));
        all
    }

    /// Those of one kind of field by itself.
    fn of_field(what: What) -> Vec<Edge> {
        let bytes = [Byte::Legal, Byte::Small, Byte::Apostrophe, Byte::ZeroThenMore, Byte::Upper, Byte::Other];
        let mut all: Vec<Edge> = Fill::ALL.map(|fill| Edge::Filled(what, fill)).to_vec();
        all.extend(bytes.map(|byte| Edge::Behind(what, byte)));
        all.extend([Fault::Small, Fault::Last, Fault::Next, Fault::Upper].map(|fault| Edge::Told(what, fault)));
        all.push(Edge::Listed(what));
        for end in End::ALL {
            all.extend((what.least()..what.bytes()).map(|place| Edge::Ends(what, end, place)));
            if what != What::Type {
                all.push(Edge::Told(what, Fault::First(end)));
            }
        }
        all
    }

    /// The kind of edge in words, by which the summary puts them together.
    fn kind(self) -> &'static str {
        match self {
            Edge::Filled(..) => "field of a sound image filled up in each way",
            Edge::Ends(..) => "field of a sound image with its end in each place",
            Edge::Behind(..) => "each kind of byte behind the end",
            Edge::Begins(_) => "name as another begins, leftovers behind it",
            Edge::Told(..) => "rule told for each fault before the end",
            Edge::Equal(_) => "rule told for two that differ in their fill alone",
            Edge::Found(..) => "found, filled up in each way",
            Edge::Taken(..) => "taken (5), filled up in each way",
            Edge::Argument(..) => "end in an argument: 2",
            Edge::Written(..) => "written, of each length",
            Edge::Kept(..) => "leftovers that a call keeps",
            Edge::Cleared(..) => "leftovers that a delete clears",
            Edge::Listed(_) => "leftovers that are not listed",
        }
    }

    fn words(self) -> String {
        let of = match self {
            Edge::Filled(what, fill) | Edge::Found(what, fill) => format!("{}, {}", what.words(), fill.words()),
            Edge::Ends(what, end, place) => format!("{}, {} in place {place}", what.words(), end.words()),
            Edge::Behind(what, byte) => format!("{}, {byte:?}", what.words()),
            Edge::Begins(what) | Edge::Equal(what) | Edge::Listed(what) => what.words().to_string(),
            Edge::Told(what, fault) => format!("{}, {fault:?}", what.words()),
            Edge::Taken(call, what, fill) => format!("{}, {}, {}", NAMES[call], what.words(), fill.words()),
            Edge::Argument(call, part, end) => format!("{}, {} in the {}", NAMES[call], end.words(), part.name()),
            Edge::Written(call, part, length) => format!("{}, {} of {length} bytes", NAMES[call], part.name()),
            Edge::Kept(call, what) | Edge::Cleared(call, what) => format!("{}, {}", NAMES[call], what.words()),
        };
        format!("{}: {of}", self.kind())
    }

    /// Whether a step of a run can meet it: a run makes no listing.
    fn by_steps(self) -> bool {
        !matches!(self, Edge::Listed(_))
    }
}

/// How often each edge was met, by calls and by steps.
#[derive(Default)]
pub struct NameEdges(BTreeMap<Edge, [u64; 2]>);

impl NameEdges {
    pub fn seen(&mut self, by: By, seen: &Seen) {
        let mut edges = seen.edges();
        edges.sort_unstable();
        edges.dedup();
        edges.retain(|edge| matches!(by, By::Call) || edge.by_steps());
        edges.into_iter().for_each(|edge| self.0.entry(edge).or_default()[by as usize] += 1);
    }

    fn met(&self, edge: Edge) -> [u64; 2] {
        self.0.get(&edge).copied().unwrap_or_default()
    }

    /// What is demanded: words, how often it was met, and how often at least it must be.
    pub fn demands(&self) -> Vec<(String, u64, u64)> {
        let mut demands = Vec::new();
        for edge in Edge::all() {
            let [calls, steps] = self.met(edge);
            demands.push((format!("names by a call: {}", edge.words()), calls, LEAST[0]));
            if edge.by_steps() {
                demands.push((format!("names by a step: {}", edge.words()), steps, LEAST[1]));
            }
        }
        demands
    }

    /// A line for each kind of edge: how many there are, and how often the one that was met least.
    pub fn summary(&self) -> String {
        let mut kinds: Vec<(&str, usize, [u64; 2])> = Vec::new();
        for edge in Edge::all() {
            let met = self.met(edge);
            match kinds.iter_mut().find(|kind| kind.0 == edge.kind()) {
                None => kinds.push((edge.kind(), 1, met)),
                Some((_, edges, least)) => (*edges, *least) = (*edges + 1, [0, 1].map(|by: usize| least[by].min(met[by]))),
            }
        }
        let mut out = format!("{:53}{:>9}{:>9}{:>9}\n", "edges of names, the least of each kind", "edges", "by calls", "by steps");
        for (words, edges, [calls, steps]) in kinds {
            let _ = writeln!(out, "{words:53}{edges:9}{calls:9}{steps:9}");
        }
        out
    }
}
