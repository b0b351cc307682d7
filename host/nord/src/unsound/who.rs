//! Who holds a page of an unsound image, by what the pointers say: the first two, whether there are more, and the page's bit.

use super::doubt::words;
use super::files::twins;
use super::judge::{Judge, Mark};
use super::listing::marked;
use super::Broken;
use crate::volume::Holder;
use crate::volume_json;
use serde::Serialize;

/// A page, and who holds it.
#[derive(Serialize)]
pub struct Who {
    #[serde(flatten)]
    broken: Broken,
    /// The page that is asked for; `page` is that of the broken place.
    asked: u32,
    holders: Vec<Holds>,
    more_holders: bool,
    /// The page's bit, where it can be found.
    reserved: Option<bool>,
    doubts: Vec<String>,
}

/// One holder; names only where a file holds the page.
#[derive(Serialize)]
pub struct Holds {
    #[serde(skip)]
    words: String,
    #[serde(flatten)]
    numbers: volume_json::Holder,
    doubts: Vec<String>,
}

impl Who {
    pub fn of(judge: &Judge, broken: Broken, page: u32) -> Who {
        let mark = judge.mark(page);
        let twice = mark == Some(Mark::Twice);
        Who {
            broken,
            asked: page,
            holders: judge.held.both(page).iter().map(|holder| Holds::of(judge, holder, twice)).collect(),
            more_holders: judge.held.more(page),
            reserved: judge.disk.bit(page),
            doubts: mark.map(|mark| mark.words().to_string()).into_iter().collect(),
        }
    }

    /// The rule and its place, then a line for each holder and one for the bit.
    pub fn text(&self) -> String {
        let mut lines = vec![self.broken.line()];
        lines.extend(self.holders.iter().map(|holder| marked(holder.words.clone(), &holder.doubts)));
        if self.holders.is_empty() {
            lines.push("free: nobody holds it".to_string());
        }
        if self.more_holders {
            lines.push("? more than these two hold it".to_string());
        }
        lines.push(match (self.reserved, self.holders.is_empty()) {
            (Some(true), true) => "? its bit is set, and nobody holds the page".to_string(),
            (Some(false), false) => "? its bit is clear, and the page is held".to_string(),
            (Some(true), _) => "its bit is set: the page is reserved".to_string(),
            (Some(false), _) => "its bit is clear: the page is not reserved".to_string(),
            (None, _) => "? its bit is not to be found: the bit file pointer is wrong".to_string(),
        });
        lines.iter().map(|line| format!("{line}\n")).collect()
    }
}

impl Holds {
    /// A holder, doubtful where he is not the only one or where his own entry is.
    fn of(judge: &Judge, holder: &Holder, twice: bool) -> Holds {
        let of_file = holder.kind.of_a_file();
        let file = judge.file(holder.user, holder.file).filter(|_| of_file);
        let mut doubts: Vec<String> = twice.then(|| Mark::Twice.words().to_string()).into_iter().collect();
        if let Some(file) = &file {
            doubts.extend(words(&judge.own_doubts(file, &twins(&judge.disk, holder.user))));
        }
        Holds {
            words: judge.disk.holder_words(holder),
            numbers: volume_json::Holder::named(&judge.disk, holder),
            doubts,
        }
    }
}
