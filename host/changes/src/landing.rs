//! What a landing is compared by: the book's definitions, the promises and the proof files, before it and after.

use crate::definitions::{self, Definition};
use crate::fate::Item;
use crate::files::{self, is_proof};
use crate::git::{Commit, Difference, Repository, Texts};
use crate::promises::{self, Row};
use std::io;
use std::path::Path;

/// The definitions, and the theorems that edits of definitions must break.
const BOOK: [&str; 2] = ["crates/book/specs/", "crates/book/proofs/"];
pub const PROMISES: &str = "docs/PROMISES.md";

/// The definitions of a side are all there are: `pub` ones, and those that only the book itself uses.
pub struct Side {
    pub definitions: Vec<Item>,
    pub private: Vec<Item>,
    pub promises: Vec<Row>,
    pub promises_text: String,
    pub proofs: Texts,
}

pub struct Landing {
    pub base: Commit,
    pub head: Commit,
    /// The working tree is that of the commit it stands on.
    pub committed: bool,
    pub before: Side,
    pub after: Side,
    pub proofs: Vec<Difference>,
    pub promises: Vec<Difference>,
}

/// The definitions of the book; each stands in the module that its file is.
fn book(texts: &Texts, wanted: impl Fn(&Definition) -> bool) -> Vec<Item> {
    let modules = texts.iter().filter_map(|(path, text)| {
        let inner = BOOK.iter().find_map(|folder| path.strip_prefix(folder))?;
        let module = inner.strip_suffix(".antt")?;
        Some((module.to_string(), text))
    });
    let items = modules.flat_map(|(module, text)| {
        let own: Vec<Definition> = definitions::of(text).into_iter().filter(|one| wanted(one)).collect();
        own.into_iter().map(move |one| Item {
            place: module.clone(),
            name: one.name,
            text: one.text,
        })
    });
    items.collect()
}

impl Side {
    fn of(mut texts: Texts) -> Side {
        let promises_text = texts.remove(PROMISES).unwrap_or_default();
        Side {
            definitions: book(&texts, |one| one.public),
            private: book(&texts, |one| !one.public),
            promises: promises::rows(&promises_text),
            promises_text,
            proofs: texts,
        }
    }
}

impl Landing {
    /// From a commit to the working tree that a folder lies in.
    pub fn since(base: &str, folder: &Path) -> io::Result<Landing> {
        let repository = Repository::around(folder)?;
        let (base, head) = (repository.commit(base)?, repository.commit("HEAD")?);
        let (old, new) = (repository.tree(&base)?, repository.working_tree()?);
        let side = |tree: &str| {
            let texts = repository.texts(tree, |path| path == PROMISES || is_proof(path))?;
            io::Result::Ok(Side::of(texts))
        };
        Ok(Landing {
            committed: repository.tree(&head)? == new,
            before: side(&old)?,
            after: side(&new)?,
            proofs: repository.differences(&old, &new, &files::PATHS)?,
            promises: repository.differences(&old, &new, &[PROMISES])?,
            base,
            head,
        })
    }
}
