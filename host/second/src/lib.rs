//! A second implementation of document 01, the NORD File System's disk
//! images, written from the paper alone. It serves only to be compared with
//! the proved library, and as the plain program to measure that one against.
//!
//! An image is a slice of 16-bit words; P is its length divided by 1,024.
//! Each call answers by the numbers of document 01's table, and says with 3
//! where the image is broken (document 02, T-01). Free pages are searched a word
//! of the bit file at a step (T-02). Short names end in an apostrophe (T-03);
//! what old volumes have behind them, zeros, is converted to it and back (T-04).
//! Stale bits and counts are salvaged from what the pointers hold (T-05). A
//! volume has up to 140,733 pages, and a bit file of as many pages as it wants
//! (T-06).

#![forbid(unsafe_code)]

mod arguments;
pub mod bits;
mod check;
mod convert;
pub mod entry;
mod files;
mod find;
mod format;
mod holder;
pub mod image;
mod length;
mod list;
pub mod name;
mod place;
pub mod pointer;
pub mod reply;
mod rules;
mod run;
mod salvage;
pub mod search;
mod users;
mod volume;
mod walk;

pub use check::check;
pub use convert::{convert_to_apostrophe, convert_to_zeros};
pub use files::{create_contiguous, create_indexed, delete_file, note_open, write_page};
pub use find::{address, find_file, find_user, read_page};
pub use format::format;
pub use holder::who_holds;
pub use length::{grow, shrink};
pub use list::list;
pub use reply::{kind, Holder, HolderReply, Place, Reply};
pub use run::{run, Step, CHECK_IS_A_STEP};
pub use salvage::{salvage, Change};
pub use users::{create_user, delete_user, give, take};
