//! The map of a volume: a cell for each page, or for several of a large pack, coloured by its holder, as a picture and for a terminal.

mod cell;
mod fold;
mod layout;
mod legend;
mod letters;
mod page;
mod svg;
mod text;

pub use layout::NARROWEST;
pub use legend::grouped;
pub use page::{Drawing, Page};
pub use svg::{draw, svg};
pub use text::{text, write};
