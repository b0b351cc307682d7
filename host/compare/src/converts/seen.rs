//! What a conversion met: the fields and the unused entries before it, its answer, and the words after it.

use super::*;
use crate::calls::{Answer, Call};
use crate::names::Field;
use crate::scene::Scene;
use crate::words::*;

/// A conversion with the images before and after it, and its answer. Where not all of the image was lent, both are what was lent.
pub struct Seen<'a> {
    pub way: Way,
    pub before: &'a [u16],
    pub answer: &'a Answer,
    pub after: &'a [u16],
}

/// A field, and where it lies in the file of its entry: the position of its page.
struct Placed {
    field: Field,
    position: u32,
}

impl Placed {
    fn is_short(&self) -> bool {
        self.field.fill() != Fill::Full
    }

    /// Whose entry it is of, where that lies after the first page of its file.
    fn later(&self) -> Option<What> {
        let of = match self.field.what {
            What::Volume => None,
            What::User => Some(What::User),
            What::File | What::Type => Some(What::File),
        };
        of.filter(|_| self.position > 0)
    }
}

impl Seen<'_> {
    /// The edges that it met. What the call left is looked at here, too: where that is not right, nothing was met.
    pub fn edges(&self) -> Vec<Edge> {
        match self.answer.number {
            0 if self.after == all_filled(self.before, self.way.to()) => self.done(),
            0 => Vec::new(),
            _ if self.after != self.before => Vec::new(),
            1 => vec![Edge::Length],
            3 => vec![Edge::Unsound(self.answer.rule, self.placed().iter().any(|placed| self.is_wrong(placed)))],
            12 => self.refused(),
            _ => Vec::new(),
        }
    }

    /// The fields that are converted.
    fn placed(&self) -> Vec<Placed> {
        let scene = Scene::read(self.before);
        let position = |field: &Field| match field.what {
            What::Volume => 0,
            What::User => field.user / 32,
            What::File | What::Type => (256 * field.user + field.file) / 32,
        };
        Field::all(self.before, &scene).into_iter().map(|field| Placed { position: position(&field), field }).collect()
    }

    /// Whether a field stands in the way.
    fn is_wrong(&self, placed: &Placed) -> bool {
        placed.is_short() && placed.field.fill() != self.way.from()
    }

    fn done(&self) -> Vec<Edge> {
        let placed = self.placed();
        let short: Vec<&Placed> = placed.iter().filter(|placed| placed.is_short()).collect();
        let mut edges = self.unused();
        if short.is_empty() {
            edges.push(Edge::Nothing);
            return edges;
        }
        edges.push(Edge::Changed);
        edges.extend(placed.iter().filter(|placed| !placed.is_short()).map(|placed| Edge::Full(placed.field.what)));
        for placed in short {
            edges.push(Edge::Converted(placed.field.what, placed.field.name().len()));
            edges.extend(placed.later().map(Edge::Later));
            if placed.position >= 512 {
                edges.push(Edge::LaterBlock);
            }
        }
        edges
    }

    /// Unused entries that have a name: in the fill that the call starts from, so that it would be converted if the entry were used, or in
    /// another one, so that it would stand in the way.
    fn unused(&self) -> Vec<Edge> {
        let scene = Scene::read(self.before);
        let mut edges = Vec::new();
        for (what, pages) in [(What::User, &scene.user_pages), (What::File, &scene.object_pages)] {
            let entries = pages.iter().flat_map(|&(_, page)| (0..32).map(move |n| entry_at(page, n)));
            for at in entries.filter(|&at| self.before[at] & 0x8000 == 0) {
                let name = &self.before[at + NAME..at + NAME + 8];
                let fill = Fill::of(&to_bytes(name));
                if !bytes_of(name).is_empty() && fill != Fill::Full {
                    edges.push(Edge::Unused(what, fill == self.way.from()));
                }
            }
        }
        edges
    }

    /// What stands in the way.
    fn refused(&self) -> Vec<Edge> {
        let placed = self.placed();
        let short: Vec<&Placed> = placed.iter().filter(|placed| placed.is_short()).collect();
        let wrong: Vec<&Placed> = short.iter().copied().filter(|placed| self.is_wrong(placed)).collect();
        let mut edges = Vec::new();
        if let [one] = wrong[..] {
            edges.push(Edge::InTheWay(one.field.what, one.field.fill()));
            edges.extend(one.later().map(Edge::LaterInTheWay));
            if short.len() == 1 {
                edges.push(Edge::OnlyShort(one.field.what));
            }
        }
        if wrong.iter().all(|placed| placed.field.fill() == self.way.to()) {
            edges.push(if wrong.len() == short.len() { Edge::Again } else { Edge::Mixed });
        }
        edges
    }
}

/// Calls one after the other, with their answers, and the images before the first and after each: what the conversions among them met.
pub fn series(calls: &[Call], answers: &[Answer], images: &[Vec<u16>]) -> Vec<(Way, Edge)> {
    let done = |n: usize| answers.get(n).is_some_and(|answer| answer.number == 0);
    let way_of = |n: usize| calls.get(n).filter(|_| n < answers.len()).and_then(Way::of);
    let mut edges = Vec::new();
    for n in 0..answers.len() {
        let Some(way) = way_of(n) else { continue };
        let after_a_name = n > 0 && done(n - 1) && matches!(calls[n - 1], Call::CreateUser { .. });
        if after_a_name && images[n - 1] == all_filled(&images[n - 1], way.from()) && answers[n].number == owed(way) {
            edges.push((way, Edge::Wrote));
        }
        if !done(n) || images[n] == images[n + 1] {
            continue;
        }
        if way_of(n + 1) == Some(way.back()) && done(n + 1) && images[n + 2] == images[n] {
            edges.push((way, Edge::ThereAndBack));
        }
        if way_of(n + 1) == Some(way) && answers[n + 1].number == 12 {
            edges.push((way, Edge::Twice));
        }
        if n > 0 && done(n - 1) && done(n + 1) {
            edges.push((way, Edge::Between));
        }
    }
    edges
}

/// What a volume in the fill to start from is answered after a call wrote a name: that has an apostrophe.
fn owed(way: Way) -> u32 {
    match way {
        Way::ToApostrophe => 12,
        Way::ToZeros => 0,
    }
}
