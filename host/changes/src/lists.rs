//! The lists of names, by what became of them.

use crate::fate::{Fate, Told};
use crate::files::{self, File};
use crate::landing::Landing;
use crate::names::{bullet, counted, cut, grouped, groups, in_full, Groups};
use crate::promises::columns_changed;

/// The longest name of a promise.
const LONG: usize = 100;

/// More files that changed in their places are told by their numbers.
const MANY: usize = 40;

/// One list with its head, where there is something in it.
fn headed(fate: Fate, count: usize, aside: &str, names: &str) -> String {
    match count {
        0 => String::new(),
        count => bullet(&format!("{} ({}{aside}): {names}", fate.name(), grouped(count))),
    }
}

/// A place, or two where something moved.
fn place_of(old: Option<&str>, new: Option<&str>) -> String {
    match (old, new) {
        (Some(old), Some(new)) if old != new => format!("`{old}` to `{new}`"),
        (old, new) => format!("`{}`", new.or(old).unwrap_or_default()),
    }
}

/// The book's definitions by their modules.
pub fn definitions(told: &[Told]) -> String {
    let of = |fate: Fate| {
        let own: Vec<&Told> = told.iter().filter(|one| one.fate == fate).collect();
        let place = |one: &Told| place_of(one.old.as_deref(), one.new.as_deref());
        let groups = groups(own.iter().map(|one| (place(one), one.name.clone())));
        let names = if fate == Fate::Stayed { counted(&groups) } else { in_full(&groups) };
        headed(fate, own.len(), "", &names)
    };
    let order = [
        Fate::Changed,
        Fate::Moved,
        Fate::MovedAndChanged,
        Fate::Came,
        Fate::Went,
        Fate::Stayed,
    ];
    order.map(of).concat()
}

/// The part of a heading in front of its colon.
fn short(heading: &Option<String>) -> &str {
    heading.as_deref().unwrap_or_default().split(':').next().unwrap_or_default()
}

/// What is said of a promise beside its name: the columns that are others, and where it stood.
fn aside(one: &Told, landing: &Landing) -> String {
    let mut more = Vec::new();
    if matches!(one.fate, Fate::Changed | Fate::MovedAndChanged) {
        more = columns_changed(one, &landing.before.promises, &landing.after.promises);
    }
    if matches!(one.fate, Fate::Moved | Fate::MovedAndChanged) {
        more.push(format!("from {}", short(&one.old)));
    }
    match more.is_empty() {
        true => String::new(),
        false => format!(" ({})", more.join(", ")),
    }
}

/// The promises that are not as they were, one to a line.
pub fn promises(told: &[Told], landing: &Landing) -> String {
    let one = |one: &Told| {
        let place = short(if one.new.is_some() { &one.new } else { &one.old });
        let (name, more) = (cut(&one.name, LONG), aside(one, landing));
        bullet(&format!("{}: {place}: {name}{more}", one.fate.name()))
    };
    told.iter().filter(|one| one.fate != Fate::Stayed).map(one).collect()
}

/// A proof file without what all have, as its folder and its name: `nord/proofs/ask` and `address`.
fn unit(path: &str) -> (String, String) {
    let inner = path.strip_prefix("crates/").unwrap_or(path);
    let inner = inner.strip_suffix(".antt").unwrap_or(inner);
    let parts = [("/Proof", ""), ("/Answers", ""), ("/Invariants", ", invariants")];
    let part = parts.iter().find_map(|(file, said)| Some((inner.strip_suffix(file)?, *said)));
    let (inner, said) = part.unwrap_or((inner, ""));
    let (folder, name) = inner.rsplit_once('/').unwrap_or(("", inner));
    (folder.to_string(), format!("{name}{said}"))
}

/// The folder and the name of a file; both, where it moved.
fn placed(file: &File) -> (String, String) {
    let (old, new) = (file.old.as_deref().map(unit), file.new.as_deref().map(unit));
    let folder = |unit: &Option<(String, String)>| unit.as_ref().map(|unit| unit.0.clone());
    let place = place_of(folder(&old).as_deref(), folder(&new).as_deref());
    let name = match (old, new) {
        (Some(old), Some(new)) if old.1 != new.1 => format!("{} as {}", old.1, new.1),
        (old, new) => new.or(old).unwrap_or_default().1,
    };
    (place, name)
}

/// How many files by crate and folder.
fn by_part(own: &[&File]) -> Groups {
    let part = |file: &File| files::part(file.path()).unwrap_or_default();
    groups(own.iter().map(|file| (format!("`{}`", part(file)), String::new())))
}

/// The proof files by their folders.
pub fn proof_files(told: &[File]) -> String {
    let of = |fate: Fate| {
        let own: Vec<&File> = told.iter().filter(|file| file.fate == fate).collect();
        let names = match fate {
            Fate::Stayed => counted(&by_part(&own)),
            Fate::Changed if own.len() > MANY => counted(&by_part(&own)),
            _ => in_full(&groups(own.iter().map(|file| placed(file)))),
        };
        let aside = match own.iter().filter(|file| file.uses_alone).count() {
            0 => String::new(),
            uses => format!(", {uses} of them in `use` lines alone"),
        };
        headed(fate, own.len(), &aside, &names)
    };
    let order = [
        Fate::Moved,
        Fate::MovedAndChanged,
        Fate::Came,
        Fate::Went,
        Fate::Changed,
        Fate::Stayed,
    ];
    order.map(of).concat()
}
