//! Whether a salvage can mend an unsound image: it is tried on a copy, so that what is said is what `nord salvage` does.

use super::{Mended, Overdrawn, Salvaged};
use crate::answers::{item, pages, Refusal};
use crate::volume::ENTRY_WORDS;
use proved::Reply;
use serde::Serialize;
use std::path::Path;

/// The word of a user's entry where rule 4 compares used with given.
const USED: u32 = 16;

/// What salvage leaves alone, so that a rule about it is none of its own.
const ALONE: &str = "salvage rewrites bits, used counts and unreserved, and leaves pointers, names and files' entries alone";

/// What a salvage would do.
pub enum CanMend {
    /// It would be done, change so many words, and free so many pages that nobody holds.
    Yes { words: usize, orphans: usize },
    /// It would be refused so, for this reason.
    No { reply: Reply, why: String },
}

impl CanMend {
    /// Of an image that the check has refused so. A salvage is tried only on a rule that it could mend.
    pub fn of(image: &[u16], check: Reply) -> CanMend {
        if !is_of_salvage(check) {
            return CanMend::refused(image, check);
        }
        match Salvaged::of(image) {
            Ok(salvaged) => {
                let mended = Mended::of(image, &salvaged);
                let (words, orphans) = (mended.words(), mended.orphans.len());
                CanMend::Yes { words, orphans }
            }
            Err(reply) => CanMend::refused(image, reply),
        }
    }

    /// Of an image that a salvage is refused on so.
    pub fn refused(image: &[u16], reply: Reply) -> CanMend {
        let why = match reply.number {
            3 => format!(
                "rule {} is broken at page {}, word {}, and {ALONE}",
                reply.rule, reply.place.page, reply.place.word
            ),
            13 => Overdrawn::of(image).reasons().join("; "),
            number => format!("it would be refused ({number})"),
        };
        CanMend::No { reply, why }
    }

    /// The same refusal with what is said here.
    pub fn tell(&self, mut refusal: Refusal, path: &Path) -> Refusal {
        refusal.more.push(item("salvage", &self.words(path)));
        refusal.detailed(Salvage { salvage: self.told() })
    }

    fn words(&self, path: &Path) -> String {
        let (words, orphans) = match self {
            CanMend::Yes { words, orphans } => (*words, *orphans as u32),
            CanMend::No { why, .. } => return format!("cannot mend this: {why}"),
        };
        let changed = if words == 1 {
            "1 word".to_string()
        } else {
            format!("{words} words")
        };
        let copied_out = match orphans {
            0 => String::new(),
            _ => format!(" --orphans FOLDER (copies out {} that nobody holds first)", pages(orphans)),
        };
        format!("can mend this by changing {changed}: nord salvage {}{copied_out}", path.display())
    }

    /// The same for programs.
    fn told(&self) -> Told {
        match self {
            CanMend::Yes { words, orphans } => Told::Yes {
                mends: true,
                changed: *words,
                orphans: *orphans,
            },
            CanMend::No { reply, why } => Told::No {
                mends: false,
                number: reply.number,
                rule: reply.rule,
                why: why.clone(),
            },
        }
    }
}

/// Whether a salvage mends an image, and what it changes, or why it is refused.
#[derive(Serialize)]
#[serde(untagged)]
enum Told {
    Yes { mends: bool, changed: usize, orphans: usize },
    No { mends: bool, number: u32, rule: u32, why: String },
}

/// What a check says of a salvage.
#[derive(Serialize)]
struct Salvage {
    salvage: Told,
}

/// Whether what the check refuses is bits or counts: rules 9 and 10, and rule 4 where it compares used with given.
fn is_of_salvage(Reply { rule, place, .. }: Reply) -> bool {
    matches!(rule, 9 | 10) || (rule == 4 && place.word % ENTRY_WORDS == USED)
}
