//! What a salvage met: the volume before the damage, the damaged one, the room of the list, the answer, and what it told.

use super::*;
use crate::calls::Answer;
use crate::lists::differing;
use crate::scene::{File, Scene, User};
use crate::stale::{right, unused_users, Right};
use crate::words::*;
use proved::Change;

/// A salvage of a volume whose pointers were good before it was damaged. It was looked at already whether all is right.
pub struct Seen<'a> {
    pub sound: &'a [u16],
    pub scene: &'a Scene,
    pub before: &'a [u16],
    pub answer: &'a Answer,
    pub list: &'a [Change],
}

impl Seen<'_> {
    /// The edges that it met.
    pub fn edges(&self) -> Vec<Edge> {
        match self.answer.number {
            0 => self.done(),
            1 => vec![Edge::Length],
            3 => self.unsound(),
            13 => self.overdrawn(),
            14 => self.too_short(),
            _ => Vec::new(),
        }
    }

    /// What was told.
    fn changes(&self) -> &[Change] {
        &self.list[..self.answer.value as usize]
    }

    fn done(&self) -> Vec<Edge> {
        let changes = self.changes();
        let mut edges = self.counts();
        edges.extend(self.users_edges());
        if changes.is_empty() {
            edges.push(Edge::Nothing(!self.list.is_empty()));
            return edges;
        }
        edges.push(if changes.len() == self.list.len() { Edge::Enough } else { Edge::Spare });
        if changes.len() == 1 {
            edges.push(Edge::One);
        }
        edges.extend(self.bits());
        edges.extend(self.whole_volume());
        edges
    }

    /// The halves of counts that changed.
    fn counts(&self) -> Vec<Edge> {
        let used = self.scene.users.iter().filter_map(|user| self.halves(user.at + USED)).map(|half| Edge::Halves(Count::Used, half));
        let unreserved = self.halves(UNRESERVED).map(|half| Edge::Halves(Count::Unreserved, half));
        used.chain(unreserved).collect()
    }

    /// Whether a word of the image was told.
    fn told(&self, at: usize) -> bool {
        self.changes().iter().any(|change| change.page as usize * PAGE + change.word as usize == at)
    }

    fn halves(&self, at: usize) -> Option<Half> {
        match (self.told(at), self.told(at + 1)) {
            (false, false) => None,
            (true, true) => Some(Half::Both),
            (true, false) => Some(Half::High),
            (false, true) => Some(Half::Low),
        }
    }

    /// The changes of the bit file.
    fn bit_changes(&self) -> impl Iterator<Item = &Change> {
        let run = self.scene.bit_run();
        self.changes().iter().filter(move |change| run.contains(&change.page))
    }

    fn bits(&self) -> Vec<Edge> {
        let mut edges = Vec::new();
        let pages = self.scene.pages;
        let last = self.scene.bit_at(pages - 1);
        for change in self.bit_changes() {
            let is_last = change.page as usize * PAGE + change.word as usize == last;
            edges.extend((change.new & !change.old != 0).then_some(Edge::Set));
            edges.extend((change.old & !change.new != 0).then_some(Edge::Cleared));
            if is_last && pages % 16 > 0 {
                edges.push(Edge::WordOfP(Rest::of(change.new as u16, pages)));
            }
            if is_last && pages % 16 == 0 && (pages.is_multiple_of(TO_A_BIT_PAGE) || self.before[last + 1] != 0) {
                edges.push(Edge::LastWord);
            }
        }
        edges
    }

    /// The users whose counts changed.
    fn users(&self) -> Vec<&User> {
        self.scene.users.iter().filter(|user| self.halves(user.at + USED).is_some()).collect()
    }

    fn users_edges(&self) -> Vec<Edge> {
        let (users, bits) = (self.users(), self.scene.bit_at(0));
        let mut edges = Vec::new();
        for user in &users {
            edges.extend((user.index > 31).then_some(Edge::LaterUser));
            edges.extend(self.bit_changes().next().map(|_| Edge::UserPage(user.at < bits)));
            let above = pair(self.before, user.at + USED) > pair(self.before, user.at + GIVEN);
            edges.extend(above.then_some(Edge::AboveGiven));
            let files = self.scene.files.iter().filter(|file| file.user == user.index);
            edges.extend(files.filter_map(shape).map(Edge::Holding));
        }
        if users.windows(2).any(|two| two[0].at > two[1].at) {
            edges.push(Edge::LaterFirst);
        }
        edges
    }

    /// What is of the volume as a whole, where words changed.
    fn whole_volume(&self) -> Vec<Edge> {
        let counted = |at: &usize| pair(self.before, at + GIVEN) > 0 && pair(self.before, at + USED) > 0;
        let all_given = |user: &User| user.used > 0 && pair(self.before, user.at + GIVEN) == user.used;
        let three = self.halves(UNRESERVED).is_some() && !self.users().is_empty() && self.bit_changes().next().is_some();
        let met = [
            (Edge::Pages(self.scene.pages), [8, 16_384].contains(&self.scene.pages)),
            (Edge::AllThree, three),
            (Edge::SubindexedObjects, self.scene.subindexed),
            (Edge::Unused, unused_users(self.before, self.scene).iter().any(counted)),
            (Edge::AllGiven, self.scene.users.iter().any(all_given)),
            (Edge::NothingLeft, self.halves(UNRESERVED).is_some() && self.is_nothing_left()),
        ];
        met.into_iter().filter(|(_, met)| *met).map(|(edge, _)| edge).collect()
    }

    /// Whether all is given or the system's.
    fn is_nothing_left(&self) -> bool {
        match right(self.sound, self.scene, self.before) {
            Right::Words(words) => pair(&words, UNRESERVED) == 0,
            Right::Overdrawn { .. } => false,
        }
    }

    fn overdrawn(&self) -> Vec<Edge> {
        let Right::Overdrawn { user, sum } = right(self.sound, self.scene, self.before) else { return Vec::new() };
        let is_wrong = |page| self.scene.is_reserved(self.before, page) != self.scene.is_reserved(self.sound, page);
        let short = self.list.is_empty() && (0..self.scene.pages).any(is_wrong);
        [Some(Edge::Overdrawn { user, sum }), short.then_some(Edge::OverdrawnShort)].into_iter().flatten().collect()
    }

    fn too_short(&self) -> Vec<Edge> {
        let Right::Words(words) = right(self.sound, self.scene, self.before) else { return Vec::new() };
        let wanted = differing(self.before, &words).len();
        let met = [(Edge::OneTooFew, self.list.len() + 1 == wanted), (Edge::NoRoom, self.list.is_empty())];
        met.into_iter().filter(|(_, met)| *met).map(|(edge, _)| edge).collect()
    }

    /// The rule; whether a used count is above given that can be seen.
    fn unsound(&self) -> Vec<Edge> {
        let above = |user: &User| pair(self.before, user.at + USED) > pair(self.before, user.at + GIVEN);
        let above = self.answer.rule > 3 && self.scene.users.iter().any(above);
        let none = self.list.is_empty().then_some(Edge::UnsoundNoRoom);
        [Some(Edge::Unsound(self.answer.rule, above)), none].into_iter().flatten().collect()
    }
}

/// The shape of a file that has pages.
fn shape(file: &File) -> Option<Shape> {
    let shapes =
        [(Shape::Contiguous, file.is_contiguous()), (Shape::Indexed, file.is_indexed()), (Shape::Subindexed, file.is_subindexed())];
    shapes.into_iter().find(|(_, is)| *is).map(|(shape, _)| shape)
}
