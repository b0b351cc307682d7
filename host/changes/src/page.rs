//! The Markdown of a landing: the counts first, then the names.

use crate::fate::{compare, Told};
use crate::files::{self, File};
use crate::git::Commit;
use crate::landing::Landing;
use crate::lists::{definitions, promises, proof_files};
use crate::names::cut;
use crate::promises::items;
use crate::tables::{by_part, overview};

/// The longest subject of a commit.
const LONG: usize = 100;

/// What became of everything.
pub struct Fates {
    pub definitions: Vec<Told>,
    pub private: Vec<Told>,
    pub promises: Vec<Told>,
    pub files: Vec<File>,
}

impl Fates {
    fn of(landing: &Landing) -> Fates {
        let (before, after) = (&landing.before, &landing.after);
        Fates {
            definitions: compare(&before.definitions, &after.definitions),
            private: compare(&before.private, &after.private),
            promises: compare(&items(&before.promises), &items(&after.promises)),
            files: files::told(&before.proofs, &after.proofs, &landing.proofs),
        }
    }
}

/// A list with its heading, where there is something to list.
fn list(title: &str, names: String) -> String {
    match names.is_empty() {
        true => String::new(),
        false => format!("\n### {title}\n\n{names}"),
    }
}

fn named(commit: &Commit) -> String {
    format!("`{}` of {} (\"{}\")", commit.short, commit.date, cut(&commit.subject, LONG))
}

const NOTE: &str = "A definition or a row stayed where its text is as it was, white space and comments aside; it moved where the same text
stands in another file or under another heading. A file moved where git sees a rename. Lines are those of the whole files: for the
definitions, of crates/book/specs.";

/// The whole page.
pub fn markdown(landing: &Landing) -> String {
    let fates = Fates::of(landing);
    let state = if landing.committed {
        ""
    } else {
        ", with changes that are not committed"
    };
    let from = format!("From {} to {}{state}.", named(&landing.base), named(&landing.head));
    let parts = [
        format!("## What moved, came and went\n\n{from}\n\n{NOTE}\n\n"),
        overview(landing, &fates),
        "\n".to_string(),
        by_part(landing, &fates),
        list("Definitions of the book", definitions(&fates.definitions)),
        list("Private definitions of the book", definitions(&fates.private)),
        list("Rows of docs/PROMISES.md", promises(&fates.promises, landing)),
        list("Proof files", proof_files(&fates.files)),
    ];
    parts.concat()
}
