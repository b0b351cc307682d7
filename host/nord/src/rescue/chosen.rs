//! Which files are copied out, and which are left.

use crate::copies::Wanted;
use crate::unsound::{page_at, twins, Doubt, File, Judge};
use crate::volume::ENTRIES;
use std::path::{Path, PathBuf};

/// A file that is right, and its copy.
pub struct Chosen<'a> {
    pub file: File<'a>,
    pub copy: Wanted,
}

/// A file that is left, with all its faults; the first is the one that is told.
pub struct Left<'a> {
    pub file: File<'a>,
    pub faults: Vec<Doubt>,
}

/// All used entries of files, in their order.
#[derive(Default)]
pub struct Choice<'a> {
    pub chosen: Vec<Chosen<'a>>,
    pub left: Vec<Left<'a>>,
}

impl Choice<'_> {
    /// The copies of all files that are right.
    pub fn copies(&self) -> Vec<&Wanted> {
        self.chosen.iter().map(|chosen| &chosen.copy).collect()
    }
}

/// Parts the files by rules 6, 7 and 8, and says where in the folder each copy goes. Bits and counts do not matter here.
pub fn choose<'a>(judge: &Judge<'a>, folder: &Path) -> Choice<'a> {
    let mut choice = Choice::default();
    for user in 0..ENTRIES {
        let twins = twins(&judge.disk, user);
        let folder = folder.join(user_folder(judge, user));
        for file in judge.files(user) {
            let mut faults = judge.own_doubts(&file, &twins);
            faults.extend(judge.held_twice(&file));
            match faults.is_empty() {
                true => choice.chosen.push(Chosen {
                    copy: Wanted {
                        target: folder.join(host_name(&file)),
                        pages: pages(judge, &file),
                    },
                    file,
                }),
                false => choice.left.push(Left { file, faults }),
            }
        }
    }
    choice
}

/// A user's folder: his name, or his index as `@7` where his name is not legal or a lower user has it.
fn user_folder(judge: &Judge, user: u32) -> PathBuf {
    let entry = judge.disk.user(user).filter(|entry| entry.stored_name().is_legal(1));
    match entry {
        Some(entry) if judge.same_name(user, &entry).is_none() => entry.name().into(),
        _ => format!("@{user}").into(),
    }
}

/// READS.DATA, or READS where the type is empty. Legal names have no full stop in them.
fn host_name(file: &File) -> String {
    let (name, kind) = (file.entry.name(), file.entry.type_name());
    match kind.is_empty() {
        true => name,
        false => format!("{name}.{kind}"),
    }
}

/// Whether a file of some image goes to a host's file of that name.
pub fn is_host_name(name: &str) -> bool {
    let allowed = |byte: u8| byte.is_ascii_uppercase() || byte.is_ascii_digit() || byte == b'-' || byte == b'.';
    name.bytes().all(allowed)
}

/// The pages of a file whose shape is right.
fn pages(judge: &Judge, file: &File) -> Vec<u32> {
    (0..file.entry.pages())
        .filter_map(|position| page_at(judge, file, position).ok())
        .collect()
}
