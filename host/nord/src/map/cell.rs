//! The cells of a large pack's map: each is several pages that follow each other.

use super::legend::Group;
use super::page::Page;
use crate::palette::{self, Colour};
use crate::unsound::Mark;
use crate::volume::Volume;
use std::cmp::Reverse;
use std::collections::BTreeMap;
use std::ops::Range;

/// Pages that follow each other, and how many of them each group holds.
pub struct Cell {
    pub pages: Range<usize>,
    counts: BTreeMap<Group, u32>,
}

/// The pages in cells of so many; the last one has what is left.
pub fn cells(pages: &[Page], each: usize) -> Vec<Cell> {
    let starts = (0..).step_by(each);
    let cell = |(first, pages): (usize, &[Page])| {
        let mut counts = BTreeMap::new();
        for page in pages {
            *counts.entry(Group::of(page)).or_default() += 1;
        }
        let pages = first..first + pages.len();
        Cell { pages, counts }
    };
    starts.zip(pages.chunks(each)).map(cell).collect()
}

impl Cell {
    /// Whoever holds most of the pages, the first of several; free if nobody holds any. Doubtful pages, the master block and the bit file are few
    /// pages that one looks for: they come before all others.
    pub fn group(&self) -> Group {
        let doubtful = [Mark::Twice, Mark::Clear, Mark::Nobody].map(Group::Doubtful);
        let sought = doubtful
            .into_iter()
            .chain([Group::Master, Group::BitFile])
            .find(|group| self.counts.contains_key(group));
        let held = self.counts.iter().filter(|(group, _)| **group != Group::Free);
        let most = held.min_by_key(|(_, count)| Reverse(**count)).map(|(group, _)| *group);
        sought.or(most).unwrap_or(Group::Free)
    }

    /// Whether none of the pages is free.
    pub fn is_full(&self) -> bool {
        !self.counts.contains_key(&Group::Free)
    }

    /// The group's colour, the paler the more pages are free.
    pub fn colour(&self) -> Colour {
        let free = self.counts.get(&Group::Free).copied().unwrap_or(0);
        self.group().colour().paler(palette::FREE, free, self.pages.len() as u32)
    }

    /// "pages 32 to 47: 12 DOCK, 4 free".
    pub fn words(&self, volume: &Volume) -> String {
        let (free, held): (Vec<_>, Vec<_>) = self.counts.iter().partition(|(group, _)| **group == Group::Free);
        let all = held.into_iter().chain(free);
        let counts: Vec<String> = all.map(|(group, count)| format!("{count} {}", group.name(volume))).collect();
        let Range { start, end } = self.pages;
        format!("pages {start} to {}: {}", end.saturating_sub(1), counts.join(", "))
    }
}
