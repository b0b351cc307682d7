//! The check of two builds of the library, timed in turns in one process, with its instructions. host/landing makes the builds and runs it.

pub mod clock;
pub mod library;
pub mod measure;
pub mod page;
