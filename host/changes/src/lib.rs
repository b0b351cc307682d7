//! What a landing moved, from git: the book's definitions, the rows of docs/PROMISES.md, and the proof files. host/landing prints it.

pub mod definitions;
pub mod fate;
pub mod files;
pub mod git;
pub mod landing;
pub mod lists;
pub mod names;
pub mod page;
pub mod promises;
pub mod tables;
