//! All that is looked up once in an image, for every doubt about it: who holds each page, which pages have two holders, which are held and not
//! reserved, and the blocks of files. The work is bounded whatever the words are: a block is looked at once, however many files lead to it.

use super::slots::{Block, Slots};
use crate::volume::{Disk, Held, Holder, Kind, SLOTS};
use std::cell::OnceCell;
use std::ops::Range;

/// What is doubtful about a page by itself.
#[derive(Clone, Copy, Debug, PartialEq, Eq, PartialOrd, Ord)]
pub enum Mark {
    /// Two hold it, or more.
    Twice,
    /// Somebody holds it, and its bit is clear.
    Clear,
    /// Its bit is set, and nobody holds it.
    Nobody,
}

impl Mark {
    /// The page's doubt in short words.
    pub fn words(self) -> &'static str {
        match self {
            Mark::Twice => "held twice",
            Mark::Clear => "held, bit clear",
            Mark::Nobody => "set, no holder",
        }
    }
}

/// An image, and what is looked up in it once.
pub struct Judge<'a> {
    pub disk: Disk<'a>,
    pub held: Held,
    pub twice: Pages,
    pub clear: Pages,
    blocks: Vec<OnceCell<Box<Block>>>,
}

impl<'a> Judge<'a> {
    pub fn of(image: &'a [u16]) -> Judge<'a> {
        let (disk, held) = (Disk::new(image), Held::of(image));
        let count = disk.pages();
        let is_held = |page: u32| held.first(page).kind != Kind::Free;
        let twice = Pages::such(count, |page| held.both(page).len() > 1);
        let clear = Pages::such(count, |page| is_held(page) && disk.bit(page) == Some(false));
        Judge {
            disk,
            held,
            twice,
            clear,
            blocks: (0..count).map(|_| OnceCell::new()).collect(),
        }
    }

    /// What is doubtful about a page by itself.
    pub fn mark(&self, page: u32) -> Option<Mark> {
        let nobody = self.held.first(page).kind == Kind::Free;
        match self.disk.bit(page) {
            _ if self.twice.has(page) => Some(Mark::Twice),
            Some(false) if !nobody => Some(Mark::Clear),
            Some(true) if nobody => Some(Mark::Nobody),
            _ => None,
        }
    }

    /// Who else holds a page that this one holds.
    pub fn other(&self, page: u32, own: &Holder) -> Option<Holder> {
        self.held.both(page).into_iter().find(|holder| holder != own)
    }

    /// The slots of a block that lies in the image.
    pub fn block(&self, page: u32) -> Option<&Block> {
        let kept = self.blocks.get(page as usize).filter(|_| self.disk.inside(page))?;
        Some(kept.get_or_init(|| Box::new(self.looked_at(page))))
    }

    fn looked_at(&self, block: u32) -> Block {
        let pointers: Vec<u32> = (0..SLOTS).map(|slot| self.disk.slot(block, slot)).collect();
        let such = |such: &dyn Fn(u32) -> bool| Slots::such(|slot| such(pointers[slot as usize]));
        Block::new(
            such(&|page| self.disk.inside(page)),
            such(&|page| page != 0),
            such(&|page| self.twice.has(page)),
            such(&|page| self.clear.has(page)),
        )
    }

    /// "pointer 70000 is no page of 154".
    pub fn no_page(&self, pointer: u32) -> String {
        match pointer {
            0 => "no pointer".to_string(),
            _ => format!("pointer {pointer} is no page of {}", self.disk.pages()),
        }
    }
}

/// Some pages of an image, counted from the first on.
pub struct Pages {
    /// How many there are before each page, and in all.
    before: Vec<u32>,
}

impl Pages {
    fn such(count: u32, such: impl Fn(u32) -> bool) -> Pages {
        let mut before = vec![0];
        before.extend((0..count).scan(0, |sum, page| {
            *sum += u32::from(such(page));
            Some(*sum)
        }));
        Pages { before }
    }

    pub fn has(&self, page: u32) -> bool {
        let at = page as usize;
        matches!(self.before.get(at..at.saturating_add(2)), Some([before, with]) if before < with)
    }

    /// How many of them lie in a run, and the first that does.
    pub fn within(&self, run: &Range<u32>) -> (u32, u32) {
        let upto = |page: u32| self.before.get(page as usize).or(self.before.last()).copied().unwrap_or(0);
        let count = upto(run.end).saturating_sub(upto(run.start));
        let first = self.before.partition_point(|before| *before <= upto(run.start));
        (count, first.saturating_sub(1) as u32)
    }
}

#[cfg(test)]
mod tests {
    use super::Pages;

    #[test]
    fn pages_of_a_run_are_counted() {
        let pages = Pages::such(20, |page| [0, 7, 8, 19].contains(&page));
        for start in 0..20 {
            for end in start..25 {
                let within: Vec<u32> = (start..end).filter(|page| [0, 7, 8, 19].contains(page)).collect();
                let (count, first) = pages.within(&(start..end));
                assert_eq!(count as usize, within.len(), "{start}..{end}");
                assert!(within.first().is_none_or(|wanted| *wanted == first), "{start}..{end}");
            }
        }
        assert!(pages.has(7) && pages.has(19) && !pages.has(9) && !pages.has(20) && !pages.has(u32::MAX));
    }
}
