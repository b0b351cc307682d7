//! What a conversion has changed, and what is in the way of one that is refused. The proved library says that it is done, or 12, and no more:
//! the rest is found in the words of the image.

mod changed;
mod in_the_way;

pub use changed::Changed;
pub use in_the_way::InTheWay;

use crate::args::Ending;
use crate::volume::Fill;

impl Ending {
    /// The word as it is given.
    pub fn word(self) -> &'static str {
        word(self.fill())
    }

    /// What stands behind short names after a conversion to this one.
    pub fn fill(self) -> Fill {
        match self {
            Ending::Apostrophe => Fill::Apostrophe,
            Ending::Zeros => Fill::Zeros,
        }
    }

    /// What has to stand there before.
    pub fn starts_from(self) -> Fill {
        match self {
            Ending::Apostrophe => Fill::Zeros,
            Ending::Zeros => Fill::Apostrophe,
        }
    }
}

/// A fill, for programs.
fn word(fill: Fill) -> &'static str {
    match fill {
        Fill::Zeros => "zeros",
        Fill::Apostrophe => "apostrophe",
        Fill::Leftovers => "leftovers",
    }
}
