//! A page's words as a bench wants them: octal as in the manual, decimal, and what each is where that is known. Nothing here needs a sound
//! image: who holds the page is found by following the pointers, and what they say is told as it stands.

mod json;
mod text;
mod word;

use crate::broken::Broken;
use crate::volume::{character, meaning, Disk, Held, Holder, Meaning};

/// The words of a page.
pub const WORDS: u32 = proved::PAGE as u32;

/// A page of an image, who holds it, and where the image is broken.
pub struct Page<'a> {
    disk: Disk<'a>,
    number: u32,
    held: Held,
    broken: Option<Broken<'a>>,
}

impl Page<'_> {
    pub fn of<'a>(image: &'a [u16], number: u32, broken: Option<Broken<'a>>) -> Page<'a> {
        Page {
            disk: Disk::new(image),
            number,
            held: Held::of(image),
            broken,
        }
    }

    /// Who holds the page: the first two.
    fn holders(&self) -> Vec<Holder> {
        self.held.both(self.number)
    }

    fn value(&self, word: u32) -> u16 {
        self.disk.words(self.number, word, 1).first().copied().unwrap_or(0)
    }

    /// What a word is, to each holder of the page.
    fn meanings(&self, word: u32) -> Vec<Meaning> {
        let of = |holder: &Holder| meaning(&self.disk, holder, self.number, word);
        self.holders().iter().filter_map(of).collect()
    }

    /// Where the image is broken, if that is at this word.
    fn broken_at(&self, word: u32) -> Option<&Broken<'_>> {
        let here = |broken: &&Broken| (broken.place.page, broken.place.word) == (self.number, word);
        self.broken.as_ref().filter(here)
    }
}

/// A word's two bytes as characters; a point stands for what cannot be shown.
fn characters(value: u16) -> String {
    value.to_be_bytes().map(character).into_iter().collect()
}
