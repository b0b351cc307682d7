//! What a call on a larger pack met: the image before it as far as it was seen, the answer, and the check after it.

use super::*;
use crate::both::Answered;
use crate::calls::Call;
use crate::scene::Scene;
use crate::words::*;

pub struct Seen<'a> {
    pub before: &'a Scene,
    pub call: &'a Call,
    pub answered: &'a Answered,
    /// The image after it.
    pub image: &'a [u16],
}

impl Seen<'_> {
    /// The edges that it met.
    pub fn edges(&self) -> Vec<Edge> {
        let mut edges = self.broken();
        if self.answered.call.number == 0 {
            edges.extend(self.done());
            edges.extend(self.high().into_iter().map(Edge::High));
            edges.extend(self.beyond());
        }
        edges.extend(self.start());
        edges
    }

    fn several(&self) -> bool {
        bit_pages(self.before.pages) > 1
    }

    /// Where a format was told to start, and that it was done or refused so.
    fn start(&self) -> Option<Edge> {
        let Call::Format { bit_page, .. } = self.call else { return None };
        let (pages, number) = (self.before.pages, self.answered.call.number);
        let last = last_bit_start(pages) as usize;
        let start = match (*bit_page, number) {
            (None, 0) => Start::Default,
            (Some(1), 0) => Start::First,
            (Some(page), 0) if page == last => Start::Last,
            (Some(page), 2) if page == last + 1 => Start::Past,
            (Some(page), 2) if page == pages as usize - 1 => Start::End,
            _ => return None,
        };
        self.several().then_some(Edge::Format(start))
    }

    /// What the check told afterwards.
    fn broken(&self) -> Vec<Edge> {
        let (check, run) = (self.answered.check, self.before.bit_run());
        let mut edges = Vec::new();
        match check.rule {
            1 if check.place.word as usize == BIT_POINTER && (1..self.before.pages).contains(&self.before.bit_page) => {
                edges.push(Edge::PastEnd);
            }
            8 if check.first.kind == 2 && check.first.position > 0 => edges.push(Edge::Shared),
            9 if self.several() => edges.push(Edge::WrongBit(check.place.page - run.start)),
            10 if self.several() && self.before.unreserved == self.before.pages - 2 => edges.push(Edge::OneCounted),
            _ => {}
        }
        if (3..=8).contains(&check.rule) && check.place.page >= HIGH {
            edges.push(Edge::High(High::Place(check.rule)));
        }
        edges
    }

    fn done(&self) -> Vec<Edge> {
        let (answer, pages) = (self.answered.call, self.before.pages);
        match self.call {
            Call::Format { .. } if self.answered.check.value == 1 + bit_pages(pages) => vec![Edge::Fresh(pages)],
            Call::WhoHolds { .. } if answer.holder.kind == 2 => vec![Edge::Holds(answer.holder.position)],
            Call::WhoHolds { page } if *page == self.before.bit_run().end as usize && self.several() => vec![Edge::Behind],
            Call::Salvage { .. } => self.mended(),
            Call::CreateContiguous { user, count, .. } => self.run(*user, *count as u32),
            _ => Vec::new(),
        }
    }

    /// The bit pages in which a salvage changed words.
    fn mended(&self) -> Vec<Edge> {
        let run = self.before.bit_run();
        let changes = &self.answered.list[..self.answered.call.value as usize];
        let mut positions: Vec<u32> =
            changes.iter().filter(|change| run.contains(&change.page)).map(|change| change.page - run.start).collect();
        positions.dedup();
        let several = (positions.len() > 1).then_some(Edge::MendedSeveral);
        positions.into_iter().map(Edge::Mended).chain(several).collect()
    }

    /// Where a new contiguous file lies.
    fn run(&self, user: usize, count: u32) -> Vec<Edge> {
        let file = self.answered.call.value as usize;
        let Some(first) = Scene::read(self.image).file(user, file).map(|file| file.page()) else { return Vec::new() };
        let (from, to) = (first / TO_A_BIT_PAGE, (first + count - 1) / TO_A_BIT_PAGE);
        let whole = (first + count) / TO_A_BIT_PAGE > first.div_ceil(TO_A_BIT_PAGE);
        let high = [(High::Run, first), (High::Length, count)].map(|(high, number)| (Edge::High(high), number >= HIGH));
        let met = [(Edge::RunOver, from != to), (Edge::RunWhole, whole)].into_iter().chain(high);
        met.filter(|(_, met)| *met).map(|(edge, _)| edge).collect()
    }

    /// What was above 65,535 of a call that is done.
    fn high(&self) -> Vec<High> {
        let answer = self.answered.call;
        let page_of = |user: &usize, file: &usize| self.before.file(*user, *file).map_or(0, |file| file.page());
        let numbers = match self.call {
            Call::WhoHolds { page } => vec![(High::Holder(answer.holder.kind), *page as u32)],
            Call::Address { .. } => vec![(High::Address, answer.value)],
            Call::ReadPage { .. } => vec![(High::Read, (answer.offset / PAGE) as u32)],
            Call::WritePage { user, file, .. } => vec![(High::Write, page_of(user, file))],
            Call::Grow { user, .. } => vec![(High::Grow, answer.value), (High::Used, self.user(*user, USED))],
            Call::DeleteFile { user, file } => vec![(High::Freed, page_of(user, file))],
            Call::Give { user, .. } => vec![(High::Given, self.user(*user, GIVEN))],
            _ => Vec::new(),
        };
        numbers.into_iter().filter(|(_, number)| *number >= HIGH).map(|(high, _)| high).collect()
    }

    /// A count of a user afterwards.
    fn user(&self, index: usize, count: usize) -> u32 {
        let user = self.before.users.iter().find(|user| user.index as usize == index);
        user.map_or(0, |user| pair(self.image, user.at + count))
    }

    /// Whether the image is sound with bits from P on set.
    fn beyond(&self) -> Option<Edge> {
        let (pages, run) = (self.before.pages, self.before.bit_run());
        let from = self.before.bit_at(pages);
        let is_set = !pages.is_multiple_of(TO_A_BIT_PAGE) && self.image[from] >> (pages % 16) != 0;
        let behind = !pages.is_multiple_of(TO_A_BIT_PAGE) && self.image[from + 1..run.end as usize * PAGE].iter().any(|&word| word != 0);
        (self.several() && self.answered.check.number == 0 && (is_set || behind)).then_some(Edge::Beyond)
    }
}
