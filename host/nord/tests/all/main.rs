//! The command as its users meet it: the real program, run on image files.

mod broken;
#[path = "../made/cases.rs"]
mod cases;
mod commands;
mod common;
mod completions;
mod convert;
mod format;
mod full;
mod help;
mod host;
#[path = "../made/hostile.rs"]
mod hostile;
mod import;
mod json;
mod killed;
mod large;
mod listing;
mod names;
mod packs;
mod page;
mod pipes;
mod readme;
mod refusals;
mod rescue;
mod salvage;
mod screen;
mod script;
mod stored;
mod swapped;
mod terminal;
mod traced;
mod transfer;
mod unsound;
mod writers;
