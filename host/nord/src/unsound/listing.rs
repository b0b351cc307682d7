//! The listing of an unsound image, as far as its words can be read: users and files in their order, with what is doubtful about each.

use super::doubt::words;
use super::files::twins;
use super::judge::Judge;
use super::shapes::File;
use super::Broken;
use crate::volume::{Pointer, ENTRIES};
use crate::volume_json;
use serde::Serialize;

/// The volume with its users.
#[derive(Serialize)]
pub struct Listing {
    #[serde(flatten)]
    broken: Broken,
    name: String,
    pages: u32,
    reserved: u32,
    unreserved: u32,
    doubts: Vec<String>,
    users: Vec<User>,
}

/// A user with his files; without numbers and a name where files have an owner whose entry is not used.
#[derive(Serialize)]
struct User {
    index: u32,
    name: Option<String>,
    given: Option<u32>,
    used: Option<u32>,
    doubts: Vec<String>,
    files: Vec<Listed>,
}

/// A file as the listing has it, and what is doubtful about it.
#[derive(Serialize)]
struct Listed {
    #[serde(flatten)]
    file: volume_json::File,
    doubts: Vec<String>,
}

impl Listing {
    pub fn of(judge: &Judge, broken: Broken) -> Listing {
        let disk = &judge.disk;
        Listing {
            broken,
            name: disk.volume_name(),
            pages: disk.pages(),
            reserved: disk.reserved(),
            unreserved: disk.unreserved(),
            doubts: words(&judge.volume_doubts()),
            users: (0..ENTRIES).filter_map(|index| User::of(judge, index)).collect(),
        }
    }

    /// How many lines of the listing have a doubt.
    pub fn doubtful(&self) -> usize {
        let of_user = |user: &User| usize::from(!user.doubts.is_empty()) + user.files.iter().filter(|file| !file.doubts.is_empty()).count();
        usize::from(!self.doubts.is_empty()) + self.users.iter().map(of_user).sum::<usize>()
    }

    /// The rule and its place, then a line for the volume and each user and file, those with doubts marked.
    pub fn text(&self) -> String {
        let volume = format!(
            "VOLUME {} PAGES {} RESERVED {} UNRESERVED {}",
            self.name, self.pages, self.reserved, self.unreserved
        );
        let mut lines = vec![self.broken.line(), marked(volume, &self.doubts)];
        for user in &self.users {
            lines.push(marked(user.line(), &user.doubts));
            lines.extend(user.files.iter().map(|file| marked(file.line(), &file.doubts)));
        }
        lines.iter().map(|line| format!("{line}\n")).collect()
    }
}

/// A line as it is, or one with a mark before it and its doubts behind.
pub fn marked(line: String, doubts: &[String]) -> String {
    match doubts.is_empty() {
        true => line,
        false => format!("? {line}: {}", doubts.join("; ")),
    }
}

impl User {
    /// A user whose entry is used, or who has a file.
    fn of(judge: &Judge, index: u32) -> Option<User> {
        let (entry, files) = (judge.disk.user(index), judge.files(index));
        let doubts = match &entry {
            Some(entry) => words(&judge.user_doubts(index, entry, &files)),
            None if files.is_empty() => return None,
            None => vec!["not used, and has files".to_string()],
        };
        let twins = twins(&judge.disk, index);
        Some(User {
            index,
            name: entry.map(|entry| entry.name()),
            given: entry.map(|entry| entry.given()),
            used: entry.map(|entry| entry.used_pages()),
            doubts,
            files: files
                .iter()
                .map(|file| Listed::of(file, words(&judge.doubts(file, &twins))))
                .collect(),
        })
    }

    fn line(&self) -> String {
        match (&self.name, self.given, self.used) {
            (Some(name), Some(given), Some(used)) => format!("USER {} {name} GIVEN {given} USED {used}", self.index),
            _ => format!("USER {}", self.index),
        }
    }
}

impl Listed {
    fn of(file: &File, doubts: Vec<String>) -> Listed {
        let entry = &file.entry;
        let file = volume_json::File {
            index: file.index(),
            name: entry.name(),
            type_name: entry.type_name(),
            pages: entry.pages(),
            kind: kind(entry.pointer()),
            opens: entry.opens(),
            created: entry.created(),
        };
        Listed { file, doubts }
    }

    fn line(&self) -> String {
        let volume_json::File {
            index,
            name,
            type_name,
            pages,
            kind,
            ..
        } = &self.file;
        format!("FILE {index} {name}:{type_name} PAGES {pages} {kind}")
    }
}

/// The kind that a pointer says; both flags at once say none.
fn kind(pointer: Pointer) -> &'static str {
    match pointer {
        Pointer::None => "EMPTY",
        Pointer::Plain(_) => "CONTIGUOUS",
        Pointer::Indexed(_) => "INDEXED",
        Pointer::Subindexed(_) => "SUBINDEXED",
        Pointer::Both(_) => "UNKNOWN",
    }
}
