//! What each rule asks at a place. A rule is judged only where all lower ones hold, and the place is the first that fails, in the order of
//! docs/DECISIONS.md; where a page is held twice, the words there are those of the first holder to whom they are wrong.

use super::{bits, blocks, entries, shapes};
use crate::volume::{Disk, Held, Holder};
use proved::Place;

/// What is right at a place.
#[derive(Clone, Debug, PartialEq, Eq)]
pub struct Expected {
    pub words: String,
    /// The numbers that are right, from and to, where they are one range.
    pub range: Option<(u32, u32)>,
}

/// To whom a place is wrong, and what he expects there.
pub struct Asked {
    pub of: Holder,
    pub expected: Expected,
}

/// What a rule asks at a place that breaks it.
pub fn asked(image: &[u16], rule: u32, place: Place) -> Option<Asked> {
    let disk = Disk::new(image);
    match rule {
        1 => blocks::volume(&disk, place),
        2 => blocks::pointers(&disk, place),
        3 => blocks::user_index(&disk, place),
        4 => entries::user(&disk, place),
        5 => blocks::objects(&disk, place),
        6 => entries::object(&disk, place),
        7 => shapes::file(&disk, place),
        9 => bits::bits(&disk, &Held::of(image), place),
        10 => bits::counts(&disk, &Held::of(image), place),
        _ => None,
    }
}

impl Expected {
    pub fn words(words: impl Into<String>) -> Expected {
        Expected {
            words: words.into(),
            range: None,
        }
    }

    pub fn range(words: impl Into<String>, from: u32, to: u32) -> Expected {
        Expected {
            words: words.into(),
            range: Some((from, to)),
        }
    }

    pub fn value(words: impl Into<String>, value: u32) -> Expected {
        Expected::range(words, value, value)
    }

    pub fn by(self, of: Holder) -> Asked {
        Asked { of, expected: self }
    }
}
