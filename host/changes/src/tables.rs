//! The tables that count: how much there was and is, and what became of it.

use crate::fate::{Fate, Told, FATES};
use crate::files::{self, Size, Sum};
use crate::git::Difference;
use crate::landing::Landing;
use crate::names::grouped;
use crate::page::Fates;

const LINES: [&str; 4] = ["lines before", "lines after", "added", "removed"];
const LONGEST: [&str; 2] = ["longest line before", "after"];

fn line(cells: &[String]) -> String {
    format!("| {} |\n", cells.join(" | "))
}

/// The head of a table; what its first column and its last ones are called is said.
fn head(first: &str, last: &[&str]) -> String {
    let counts = ["before", "after"].into_iter().chain(FATES.map(Fate::name));
    let all = [first].into_iter().chain(counts).chain(last.iter().copied());
    let all: Vec<String> = all.map(str::to_string).collect();
    line(&all) + &format!("|{}\n", "---|".repeat(all.len()))
}

fn row(first: &str, counts: Vec<String>, last: Vec<String>) -> String {
    line(&[vec![first.to_string()], counts, last].concat())
}

/// The cells that count: how many before and after, and how many of each fate.
fn counts(before: usize, after: usize, fates: &[Fate]) -> Vec<String> {
    let of = |fate: Fate| fates.iter().filter(|&&one| one == fate).count();
    [before, after].into_iter().chain(FATES.map(of)).map(grouped).collect()
}

fn told_counts(told: &[Told]) -> Vec<String> {
    let fates: Vec<Fate> = told.iter().map(|one| one.fate).collect();
    let before = told.iter().filter(|one| one.old.is_some()).count();
    let after = told.iter().filter(|one| one.new.is_some()).count();
    counts(before, after, &fates)
}

fn sum_counts(sum: &Sum) -> Vec<String> {
    counts(sum.before.files, sum.after.files, &sum.fates)
}

fn sum_lines(sum: &Sum) -> Vec<String> {
    [sum.before.lines, sum.after.lines, sum.added, sum.removed].map(grouped).to_vec()
}

fn promise_lines(landing: &Landing) -> Vec<String> {
    let changed = |of: fn(&Difference) -> usize| landing.promises.iter().map(of).sum();
    let sum = Sum {
        before: Size::of([&landing.before.promises_text]),
        after: Size::of([&landing.after.promises_text]),
        added: changed(|one| one.added),
        removed: changed(|one| one.removed),
        fates: Vec::new(),
    };
    sum_lines(&sum)
}

/// Definitions, promises and proof files, each in a row.
pub fn overview(landing: &Landing, fates: &Fates) -> String {
    let (before, after) = (&landing.before.proofs, &landing.after.proofs);
    let all = files::sum(before, after, &fates.files, |_| true);
    let book = files::sum(before, after, &fates.files, |path| path.starts_with("crates/book/specs/"));
    let none = LINES.map(|_| String::new()).to_vec();
    let rows = [
        head("what", &LINES),
        row("definitions of the book, `pub`", told_counts(&fates.definitions), sum_lines(&book)),
        row("its private definitions", told_counts(&fates.private), none),
        row("rows of docs/PROMISES.md", told_counts(&fates.promises), promise_lines(landing)),
        row("proof files", sum_counts(&all), sum_lines(&all)),
    ];
    rows.concat()
}

/// The proof files by crate and folder; those that are as they were make one row.
pub fn by_part(landing: &Landing, fates: &Fates) -> String {
    let (before, after) = (&landing.before.proofs, &landing.after.proofs);
    let sums = files::sums(before, after, &fates.files);
    let told = |name: &str, sum: &Sum| {
        let longest = [sum.before.longest, sum.after.longest].map(grouped).to_vec();
        row(name, sum_counts(sum), [sum_lines(sum), longest].concat())
    };
    let (rest, changed): (Vec<_>, Vec<_>) = sums.iter().partition(|(_, sum)| sum.is_as_it_was());
    let mut table = head("proof files of", &[&LINES[..], &LONGEST].concat());
    changed.iter().for_each(|(name, sum)| table += &told(name, sum));
    if !rest.is_empty() {
        let names: Vec<&String> = rest.iter().map(|(name, _)| *name).collect();
        let is_one = |path: &str| files::part(path).is_some_and(|name| names.contains(&&name));
        let sum = files::sum(before, after, &fates.files, is_one);
        table += &told(&format!("{} others, as they were", names.len()), &sum);
    }
    table
}
