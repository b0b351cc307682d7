//! Host's files and folders into an image, all of them or none.

use super::transfer::{self, Creation, Written};
use crate::answers::{self, Answer};
use crate::args::Import;
use crate::failure::{of_file, Failure};
use crate::legal::Given;
use crate::names::{FileName, Within};
use crate::plan::{Plan, Planned};
use crate::progress::Progress;
use serde::Serialize;
use std::fs;
use std::path::{Path, PathBuf};

/// What became of a host's file.
#[derive(Serialize)]
struct Imported {
    path: String,
    name: String,
    #[serde(rename = "type")]
    kind: String,
    /// Nothing where the file was there and was left.
    #[serde(flatten)]
    written: Option<Written>,
}

/// All files of an import.
#[derive(Serialize)]
struct Imports {
    user: String,
    files: Vec<Imported>,
    imported: usize,
    left: usize,
    pages: u32,
}

/// The calls that copy all files in.
pub fn plan(list: &mut Plan, with: &Import) -> Planned {
    let (paths, warnings) = found(&with.paths)?;
    let bar = Progress::start("reading", "files", paths.len() as u64);
    let (mut hands, mut files, mut pages) = (Hands::default(), Vec::new(), 0);
    list.user(&with.user);
    for path in paths {
        let Some(imported) = one(list, with, &path, &mut hands)? else {
            return Ok(None);
        };
        pages += imported.written.as_ref().map_or(0, |written| written.pages);
        files.push(imported);
        bar.step();
        if pages > proved::MOST_PAGES as u32 {
            return Ok(None);
        }
    }
    let user = with.user.to_string();
    Ok(Some(Box::new(move |_| answer(user, files, pages, warnings))))
}

/// What goes from file to file: the names that were given so far, and the room for a file's bytes.
#[derive(Default)]
struct Hands {
    given: Given,
    bytes: Vec<u8>,
}

/// The calls that copy one file in.
fn one(list: &mut Plan, with: &Import, path: &Path, hands: &mut Hands) -> Result<Option<Imported>, Failure> {
    let (name, kind) = hands.given.to(path);
    let file = FileName {
        user: with.user.clone(),
        file: Within::Name(name.clone(), kind.clone()),
    };
    let user = list.forecast.index(&with.user);
    let there = user.is_some_and(|user| list.forecast.file_named(user, &name, &kind).is_some());
    let written = match with.no_clobber && there {
        true => None,
        false => {
            let creation = Creation {
                contiguous: false,
                created: with.created,
            };
            transfer::load(path, &mut hands.bytes)?;
            let Some(written) = transfer::put(list, &file, &hands.bytes, &creation)? else {
                return Ok(None);
            };
            Some(written)
        }
    };
    let path = path.to_string_lossy().into_owned();
    Ok(Some(Imported { path, name, kind, written }))
}

fn answer(user: String, files: Vec<Imported>, pages: u32, warnings: Vec<String>) -> Answer {
    let line = |file: &Imported| {
        let Imported { path, name, kind, .. } = file;
        let became = file.written.as_ref().map_or("is there and is left".to_string(), Written::words);
        format!("{path} -> {user}/{name}:{kind} {became}\n")
    };
    let mut text: String = files.iter().map(line).collect();
    let left = files.iter().filter(|file| file.written.is_none()).count();
    let imported = files.len() - left;
    text += &format!("{} copied to {user}, {}{}\n", some(imported), answers::pages(pages), and_left(left));
    let imports = Imports {
        user,
        files,
        imported,
        left,
        pages,
    };
    Answer {
        warnings,
        ..Answer::of(text, imports)
    }
}

/// So many files, in words.
pub fn some(files: usize) -> String {
    match files {
        1 => "1 file".to_string(),
        _ => format!("{files} files"),
    }
}

/// How many were there and are left.
pub fn and_left(files: usize) -> String {
    match files {
        0 => String::new(),
        _ => format!("; {} there already and left", some(files)),
    }
}

/// The files of these paths, those of a folder in the order of their names, and what is no file.
fn found(paths: &[PathBuf]) -> Result<(Vec<PathBuf>, Vec<String>), Failure> {
    let (mut files, mut warnings) = (Vec::new(), Vec::new());
    for path in paths {
        match fs::metadata(path).map_err(of_file(path))?.is_dir() {
            true => within(path, &mut files, &mut warnings)?,
            false => files.push(path.clone()),
        }
    }
    Ok((files, warnings))
}

/// The files of a folder and of the folders in it. A link to a file is followed, one to a folder is not.
fn within(folder: &Path, files: &mut Vec<PathBuf>, warnings: &mut Vec<String>) -> Result<(), Failure> {
    let entries = fs::read_dir(folder).and_then(|entries| entries.collect::<Result<Vec<_>, _>>());
    let mut paths: Vec<PathBuf> = entries.map_err(of_file(folder))?.iter().map(|entry| entry.path()).collect();
    paths.sort();
    for path in paths {
        let kind = fs::symlink_metadata(&path).map_err(of_file(&path))?;
        if kind.is_dir() {
            within(&path, files, warnings)?;
        } else if fs::metadata(&path).is_ok_and(|file| file.is_file()) {
            files.push(path);
        } else {
            warnings.push(format!("{}: no file, and not copied", path.display()));
        }
    }
    Ok(())
}
