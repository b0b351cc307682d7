//! What a map is drawn of.

use crate::unsound::Mark;
use crate::volume::{Holder, Volume};

/// A page: its first holder, and what is doubtful about it on an unsound image.
#[derive(Clone, Copy, Debug, PartialEq, Eq)]
pub struct Page {
    pub holder: Holder,
    pub mark: Option<Mark>,
}

/// A volume with all its pages, and what is said where it is unsound.
pub struct Drawing<'a> {
    pub volume: &'a Volume,
    pub pages: Vec<Page>,
    pub unsound: Option<String>,
}

impl Drawing<'_> {
    /// A sound volume, and who holds each page.
    pub fn sound<'a>(volume: &'a Volume, holders: &[Holder]) -> Drawing<'a> {
        let page = |holder: &Holder| Page {
            holder: *holder,
            mark: None,
        };
        Drawing {
            volume,
            pages: holders.iter().map(page).collect(),
            unsound: None,
        }
    }
}
