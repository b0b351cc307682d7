//! The edges of the searches for free pages (document 02, T-02), and how often each of them was met: by single calls, and by steps of runs.

use crate::searched::Searched;
use crate::words::TO_A_BIT_PAGE;
use std::fmt::Write;

/// How often at least each edge was met by single calls, and by steps of runs.
const LEAST: [u64; 2] = [8, 4];

/// How a search was made.
#[derive(Clone, Copy)]
pub enum By {
    Call,
    Step,
}

/// An edge: its words, whether a call met it, and how often at least it was met.
pub struct Edge {
    words: &'static str,
    met: fn(&Searched) -> bool,
    least: [u64; 2],
}

const fn edge(words: &'static str, met: fn(&Searched) -> bool) -> Edge {
    Edge { words, met, least: LEAST }
}

/// An edge where two pages of the bit file meet (document 02, T-06): only large volumes have such, so they are met seldom.
const fn border(words: &'static str, met: fn(&Searched) -> bool) -> Edge {
    Edge { words, met, least: [1, 1] }
}

/// The page of the bit file that has a page's bit.
fn bit_page(page: u32) -> u32 {
    page / TO_A_BIT_PAGE
}

/// The bit of the last page of a run, by the page after it.
fn last_bit(end: u32) -> u32 {
    (end - 1) % 16
}

/// The words whose 16 pages all lie in a run.
fn whole_words(first: u32, end: u32) -> u32 {
    (end / 16).saturating_sub(first.div_ceil(16))
}

/// The stretch of free pages that a run was found in, and those above it.
fn stretches_from(seen: &Searched, first: u32) -> Vec<(u32, u32)> {
    Searched::stretches(&seen.left).into_iter().filter(|&(start, length)| start + length > first).collect()
}

/// The edges. Two that one may look for are not among them, as no call comes to them. A search where no page below P is free: refusals 9 and
/// 10 come first, as on a sound image there is a free page for each that is unreserved, or given and not used. And pages of an entry that
/// break the highest run so that a lower one is left: they are the lowest free pages, so nothing is free below the last of them.
pub const EDGES: [Edge; 53] = [
    edge("page after a full word", |s| s.single(|page| page >= 16)),
    edge("page after 100 full words", |s| s.single(|page| page >= 1_600)),
    edge("page P-1, P % 16 = 0", |s| s.pages % 16 == 0 && s.single(|page| page == s.pages - 1)),
    edge("page P-1, P % 16 > 0, bits from P on all 0", |s| s.pages % 16 > 0 && s.beyond.iter().all(|&zero| zero) && last(s)),
    edge("page P-1, P % 16 > 0, bits from P on all 1", |s| s.pages % 16 > 0 && s.beyond.iter().all(|&zero| !zero) && last(s)),
    edge("page P-1, P % 16 > 0, bits from P on of both", |s| {
        s.pages % 16 > 0 && s.beyond.contains(&true) && s.beyond.contains(&false) && last(s)
    }),
    edge("last free page of all", |s| s.run.is_none() && s.is_search() && s.free_count() as usize == s.singles.len()),
    edge("no free page, bit of P is 0: 9", |s| s.number == 9 && s.free_count() == 0 && s.beyond.first() == Some(&true)),
    edge("no free page, bit of P is 0: 10", |s| s.number == 10 && s.free_count() == 0 && s.beyond.first() == Some(&true)),
    edge("two pages of a step in one word", |s| s.two_singles(0..=0)),
    edge("two pages of a step in bits 15 and 0", |s| s.singles.windows(2).any(|two| two[0] % 16 == 15 && two[1] == two[0] + 1)),
    edge("two pages of a step in words side by side", |s| s.two_singles(1..=1)),
    edge("two pages of a step, 1 to 4 words between", |s| s.two_singles(2..=5)),
    edge("two pages of a step, 8 words and more between", |s| s.two_singles(9..=1_023)),
    edge("three pages of a step", |s| s.singles.len() == 3),
    edge("run of one page", |s| s.found(|first, end| end == first + 1)),
    edge("run within a word", |s| s.found(|first, end| first / 16 == (end - 1) / 16 && end > first + 1)),
    edge("run within a word, touching neither end", |s| {
        s.found(|first, end| first / 16 == (end - 1) / 16 && first % 16 > 0 && last_bit(end) < 15 && end > first + 1)
    }),
    edge("run that ends at bit 15", |s| s.found(|_, end| last_bit(end) == 15)),
    edge("run that starts at bit 0", |s| s.found(|first, _| first % 16 == 0)),
    edge("run that starts in bit 15", |s| s.found(|first, end| first % 16 == 15 && end > first + 1)),
    edge("run of exactly one whole word", |s| s.found(|first, end| first % 16 == 0 && end == first + 16)),
    edge("run of 16 over a word's edge", |s| s.found(|first, end| first % 16 > 0 && end == first + 16)),
    edge("run of one whole word and a page before", |s| s.found(|first, end| first % 16 == 15 && end == first + 17)),
    edge("run of one whole word and a page after", |s| s.found(|first, end| first % 16 == 0 && end == first + 17)),
    edge("run over one word's edge", |s| s.found(|first, end| first / 16 + 1 == (end - 1) / 16)),
    edge("run of 18 and more, one whole word in its middle", |s| {
        s.found(|first, end| whole_words(first, end) == 1 && first % 16 > 0 && last_bit(end) < 15)
    }),
    edge("run with two whole words and more", |s| s.found(|first, end| whole_words(first, end) >= 2)),
    edge("run up to P-1, P % 16 = 0", |s| s.pages % 16 == 0 && s.found(|_, end| end == s.pages)),
    edge("run up to P-1, P % 16 > 0", |s| s.pages % 16 > 0 && s.found(|_, end| end == s.pages)),
    edge("run below two full words and more", |s| s.found(|_, end| s.pages - end >= 48 && full_from(s, end))),
    edge("run below 100 full words", |s| s.found(|_, end| s.pages - end >= 1_632 && full_from(s, end))),
    edge("run of exactly n, one of n - 1 the next above", |s| {
        s.found(|first, end| {
            let (own, above) = (stretches_from(s, first), end - first - 1);
            own[0] == (first, end - first) && own.get(1).is_some_and(|&(_, length)| length == above)
        })
    }),
    edge("run of exactly n, then one page, then n - 1", |s| {
        s.found(|first, end| stretches_from(s, first).starts_with(&[(first, end - first), (end + 1, end - first - 1)]))
    }),
    edge("run with a lower one that it is higher than", |s| {
        s.found(|first, end| Searched::stretches(&s.left[..first as usize]).iter().any(|&(_, length)| length >= end - first))
    }),
    edge("run at the end of a longer stretch", |s| s.found(|first, _| s.left[first as usize - 1])),
    edge("lower run, as bits from P on that are 0 make none", |s| s.tempting() && s.found(|_, _| true)),
    edge("no run, though n and more are free: 11", |s| s.none(s.singles.len()) && s.free_count() as usize >= wanted(s)),
    edge("no run, though bits from P on that are 0 would make one: 11", |s| s.tempting() && s.none(s.singles.len())),
    edge("entry takes no page: run found", |s| s.singles.is_empty() && s.found(|_, _| true)),
    edge("entry takes one page, the one before the run", |s| s.singles.len() == 1 && s.found(|first, _| s.singles[0] + 1 == first)),
    edge("entry takes two pages, those before the run", |s| {
        s.singles.len() == 2 && s.found(|first, _| s.singles[0] + 2 == first && s.singles[1] + 1 == first)
    }),
    edge("entry takes one page, of the only run: 11", |s| s.none(1) && s.runs_with(0)),
    edge("entry takes two pages, the first breaks the only run: 11", |s| s.none(2) && s.runs_with(0) && !s.runs_with(1)),
    edge("entry takes two pages, the second breaks the only run: 11", |s| s.none(2) && s.runs_with(1)),
    border("page past a full bit page", |s| s.singles.first().is_some_and(|&page| bit_page(page) > 0)),
    border("two pages of a step in two bit pages", |s| s.singles.windows(2).any(|two| bit_page(two[0]) != bit_page(two[1]))),
    border("two pages of a step, side by side in two bit pages", |s| {
        s.singles.windows(2).any(|two| bit_page(two[0]) != bit_page(two[1]) && two[1] == two[0] + 1)
    }),
    border("run over a bit page's end", |s| s.found(|first, end| bit_page(first) != bit_page(end - 1))),
    border("run up to a bit page's end", |s| s.found(|_, end| end % TO_A_BIT_PAGE == 0 && end < s.pages)),
    border("run from a bit page's start", |s| s.found(|first, _| first % TO_A_BIT_PAGE == 0)),
    border("run below a full bit page", |s| s.found(|_, end| bit_page(end) < bit_page(s.pages - 1) && full_from(s, end))),
    border("no run, one page too few over a bit page's end: 11", |s| s.none(s.singles.len()) && one_short(s)),
];

/// Whether free pages over a bit page's end are one too few for the run.
fn one_short(seen: &Searched) -> bool {
    let wanted = seen.run.map_or(0, |run| run.count);
    let over = |(first, length): &(u32, u32)| bit_page(*first) != bit_page(first + length - 1) && length + 1 == wanted;
    Searched::stretches(&seen.left).iter().any(over)
}

/// Whether the last page was taken as a single one.
fn last(seen: &Searched) -> bool {
    seen.single(|page| page == seen.pages - 1)
}

/// Whether no page is free from here on.
fn full_from(seen: &Searched, page: u32) -> bool {
    seen.left[page as usize..].iter().all(|&free| !free)
}

/// The pages that a create takes in all: its run, and its entry's.
fn wanted(seen: &Searched) -> usize {
    seen.run.map_or(0, |run| run.count as usize) + seen.singles.len()
}

/// How often each edge was met; each bit of a word by the lowest free page; each remainder of P by 16 by a call that searched.
#[derive(Default)]
pub struct Edges {
    edges: [Vec<u64>; 2],
    bits: [[u64; 16]; 2],
    remainders: [[u64; 16]; 2],
}

impl Edges {
    pub fn searched(&mut self, by: By, seen: &Searched) {
        let by = by as usize;
        self.edges[by].resize(EDGES.len(), 0);
        for (edge, times) in EDGES.iter().zip(&mut self.edges[by]) {
            *times += u64::from((edge.met)(seen));
        }
        seen.singles.iter().for_each(|page| self.bits[by][*page as usize % 16] += 1);
        if seen.is_search() {
            self.remainders[by][seen.pages as usize % 16] += 1;
        }
    }

    /// All edges: their words, and how often each was met by calls and by steps.
    pub fn all(&self) -> Vec<(String, [u64; 2])> {
        let of = |n: usize| [0, 1].map(|by: usize| self.edges[by].get(n).copied().unwrap_or(0));
        let edges = EDGES.iter().enumerate().map(|(n, edge)| (edge.words.to_string(), of(n)));
        let bits = (0..16).map(|bit| (format!("page in bit {bit}"), [0, 1].map(|by: usize| self.bits[by][bit])));
        let remainders = (0..16).map(|rest| (format!("P % 16 = {rest}"), [0, 1].map(|by: usize| self.remainders[by][rest])));
        edges.chain(bits).chain(remainders).collect()
    }

    /// What is demanded: words, how often it was met, and how often at least it must be.
    pub fn demands(&self) -> Vec<(String, u64, u64)> {
        let two = |((words, met), least): ((String, [u64; 2]), [u64; 2])| {
            let name = |by: &str| format!("search {by}: {words}");
            [(name("by a call"), met[0], least[0]), (name("by a step"), met[1], least[1])]
        };
        let least = EDGES.iter().map(|edge| edge.least).chain(std::iter::repeat(LEAST));
        self.all().into_iter().zip(least).flat_map(two).collect()
    }

    /// A line for each edge.
    pub fn summary(&self) -> String {
        let mut out = format!("{:62}{:>9}{:>9}\n", "edges of the searches", "by calls", "by steps");
        for (words, [calls, steps]) in self.all() {
            let _ = writeln!(out, "{words:62}{calls:9}{steps:9}");
        }
        out
    }
}
