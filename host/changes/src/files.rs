//! What became of the proof files: the files of crates/*/specs and crates/*/proofs, with their lines.

use crate::fate::Fate;
use crate::git::{Difference, Texts};
use std::collections::{BTreeMap, BTreeSet};

/// Where proof files stand, as git is told.
pub const PATHS: [&str; 2] = [":(glob)crates/*/specs/**", ":(glob)crates/*/proofs/**"];

/// The crate and the folder of a proof file: `nord/proofs`.
pub fn part(path: &str) -> Option<String> {
    let mut steps = path.split('/');
    let (crates, name, folder) = (steps.next()?, steps.next()?, steps.next()?);
    steps.next()?;
    let is_one = crates == "crates" && ["specs", "proofs"].contains(&folder);
    is_one.then(|| format!("{name}/{folder}"))
}

pub fn is_proof(path: &str) -> bool {
    part(path).is_some()
}

/// What became of one file.
#[derive(Clone, Debug, PartialEq, Eq)]
pub struct File {
    pub fate: Fate,
    pub old: Option<String>,
    pub new: Option<String>,
    pub added: usize,
    pub removed: usize,
    /// What it uses of other files is all that changed in it.
    pub uses_alone: bool,
}

impl File {
    /// The path it has now, or had.
    pub fn path(&self) -> &str {
        self.new.as_deref().or(self.old.as_deref()).unwrap_or_default()
    }
}

fn fate(old: bool, new: bool, difference: &Difference) -> Fate {
    let same = difference.added + difference.removed == 0;
    match (old, new, difference.old == difference.new) {
        (true, true, true) => Fate::Changed,
        (true, true, false) if same => Fate::Moved,
        (true, true, false) => Fate::MovedAndChanged,
        (false, ..) => Fate::Came,
        (true, false, _) => Fate::Went,
    }
}

/// Two texts differ in their `use` lines alone.
fn differ_in_uses(old: Option<&String>, new: Option<&String>) -> bool {
    let rest = |text: &String| {
        text.lines()
            .filter(|line| !line.starts_with("use "))
            .map(str::to_string)
            .collect::<Vec<_>>()
    };
    old.zip(new).is_some_and(|(old, new)| old != new && rest(old) == rest(new))
}

/// What became of each file, by the files of both trees and what git says differs.
pub fn told(before: &Texts, after: &Texts, differences: &[Difference]) -> Vec<File> {
    let mut files = Vec::new();
    let mut met = BTreeSet::new();
    for difference in differences {
        let (old, new) = (before.get(&difference.old), after.get(&difference.new));
        met.insert(&difference.old);
        met.insert(&difference.new);
        files.push(File {
            fate: fate(old.is_some(), new.is_some(), difference),
            old: old.map(|_| difference.old.clone()),
            new: new.map(|_| difference.new.clone()),
            added: difference.added,
            removed: difference.removed,
            uses_alone: differ_in_uses(old, new),
        });
    }
    files.extend(before.keys().filter(|path| !met.contains(path)).map(|path| File {
        fate: Fate::Stayed,
        old: Some(path.clone()),
        new: Some(path.clone()),
        added: 0,
        removed: 0,
        uses_alone: false,
    }));
    files.sort_by(|a, b| a.path().cmp(b.path()));
    files
}

/// Files and lines on one side.
#[derive(Clone, Copy, Debug, Default, PartialEq, Eq)]
pub struct Size {
    pub files: usize,
    pub lines: usize,
    /// Characters of the longest line.
    pub longest: usize,
}

impl Size {
    pub fn of<'a>(texts: impl IntoIterator<Item = &'a String>) -> Size {
        let mut size = Size::default();
        for text in texts {
            size.files += 1;
            size.lines += text.lines().count();
            let longest = text.lines().map(|line| line.chars().count()).max();
            size.longest = size.longest.max(longest.unwrap_or(0));
        }
        size
    }
}

/// What became of the files of one part, summed.
#[derive(Clone, Debug, Default, PartialEq, Eq)]
pub struct Sum {
    pub before: Size,
    pub after: Size,
    pub fates: Vec<Fate>,
    pub added: usize,
    pub removed: usize,
}

impl Sum {
    pub fn is_as_it_was(&self) -> bool {
        self.before == self.after && self.fates.iter().all(|&fate| fate == Fate::Stayed)
    }
}

/// The sum of the files whose paths are wanted. A file that moved counts where it is now, and its lines before where they were.
pub fn sum(before: &Texts, after: &Texts, files: &[File], wanted: impl Fn(&str) -> bool) -> Sum {
    let size = |texts: &Texts| Size::of(texts.iter().filter(|(path, _)| wanted(path)).map(|(_, text)| text));
    let own: Vec<&File> = files.iter().filter(|file| wanted(file.path())).collect();
    Sum {
        before: size(before),
        after: size(after),
        fates: own.iter().map(|file| file.fate).collect(),
        added: own.iter().map(|file| file.added).sum(),
        removed: own.iter().map(|file| file.removed).sum(),
    }
}

/// The sums of all parts, by their names.
pub fn sums(before: &Texts, after: &Texts, files: &[File]) -> BTreeMap<String, Sum> {
    let parts: BTreeSet<String> = before.keys().chain(after.keys()).filter_map(|path| part(path)).collect();
    let of = |name: String| {
        let own = sum(before, after, files, |path| part(path).as_ref() == Some(&name));
        (name, own)
    };
    parts.into_iter().map(of).collect()
}
