//! What can be read of an image that breaks a rule, each doubtful part marked. The proved library says that the image is unsound, which rule is
//! the lowest broken one and where; what is doubtful is judged here, each entry and each page by itself, also where lower rules are broken.
//! An image without a doubt is sound, and the other way round. Nothing is ever written.

mod contents;
mod doubt;
mod drawn;
mod files;
mod heads;
mod judge;
mod listing;
mod shapes;
mod slots;
mod users;
mod who;

pub use contents::{page_at, Contents, Unreadable};
pub use doubt::{words, Doubt};
pub use drawn::{drawn, DrawnJson};
pub use files::twins;
pub use judge::{Judge, Mark};
pub use listing::Listing;
pub use shapes::File;
pub use who::Who;

use crate::answers::broken_at;
use proved::{Place, Reply};
use serde::Serialize;

/// The lowest broken rule and its first place, as every answer about an unsound image begins.
#[derive(Clone, Copy, Debug, PartialEq, Eq, Serialize)]
pub struct Broken {
    sound: bool,
    rule: u32,
    page: u32,
    word: u32,
}

impl Broken {
    /// What the library has refused with number 3.
    pub fn of(reply: Reply) -> Broken {
        let Reply { rule, place, .. } = reply;
        Broken {
            sound: false,
            rule,
            page: place.page,
            word: place.word,
        }
    }

    /// The same as the library says it, without holders.
    pub fn reply(&self) -> Reply {
        let Broken { rule, page, word, .. } = *self;
        Reply {
            number: 3,
            rule,
            place: Place { page, word },
            ..Reply::default()
        }
    }

    /// "the image is unsound: rule 9 is broken at page 77, word 2".
    pub fn line(&self) -> String {
        let Broken { rule, page, word, .. } = *self;
        broken_at(rule, Place { page, word })
    }
}
