//! Pages of an image copied out to files of the host: each file is written beside its place, synced and placed, whole or not at all. None that is
//! there is written over.

use crate::failure::{of_file, Failure};
use crate::progress::Progress;
use crate::replace::{self, Fresh};
use crate::store;
use std::fs;
use std::io::ErrorKind;
use std::path::{Path, PathBuf};

/// A file that is to be there, and the pages that it has.
pub struct Wanted {
    pub target: PathBuf,
    pub pages: Vec<u32>,
}

/// What sort of files they are.
pub struct Sort {
    /// What is said where one is there with other content.
    pub nothing: &'static str,
    /// Whether a name is one that such a file can have: what a killed run has left of it goes away.
    pub is_name: fn(&str) -> bool,
}

/// How many files were written, and how many were there already with the same content.
#[derive(Clone, Copy, Debug, PartialEq, Eq)]
pub struct Copied {
    pub written: usize,
    pub there: usize,
}

/// Copies the files out, those of one folder together. Where one is there with other content, nothing is written.
pub fn copy_out(image: &[u16], wanted: &[&Wanted], sort: &Sort) -> Result<Copied, Failure> {
    let mut judged = Vec::new();
    for file in wanted {
        judged.push((*file, is_there(image, file, sort)?));
    }
    let missing: Vec<&Wanted> = judged.iter().filter(|(_, there)| !there).map(|(file, _)| *file).collect();
    let bar = Progress::start("copying out", "pages", missing.iter().map(|file| file.pages.len() as u64).sum());
    for of_folder in judged.chunk_by(|(one, _), (two, _)| one.target.parent() == two.target.parent()) {
        write(image, of_folder, sort, &bar)?;
    }
    Ok(Copied {
        written: missing.len(),
        there: wanted.len() - missing.len(),
    })
}

/// The bytes of a file, the high byte of each word first.
fn bytes_of(image: &[u16], file: &Wanted) -> Vec<u8> {
    let mut bytes = Vec::with_capacity(file.pages.len() * store::PAGE);
    for page in &file.pages {
        let words = image.chunks_exact(proved::PAGE).nth(*page as usize);
        bytes.extend(store::bytes(words.unwrap_or_default()));
    }
    bytes
}

/// Whether the file is there with its bytes; one with others, or what is no file, is never written over.
fn is_there(image: &[u16], file: &Wanted, sort: &Sort) -> Result<bool, Failure> {
    let target = &file.target;
    match fs::symlink_metadata(target) {
        Err(error) if error.kind() == ErrorKind::NotFound => return Ok(false),
        found => found.map_err(of_file(target))?,
    };
    let bytes = bytes_of(image, file);
    let same_size = fs::metadata(target).is_ok_and(|found| found.is_file() && found.len() == bytes.len() as u64);
    match same_size && fs::read(target).map_err(of_file(target))? == bytes {
        true => Ok(true),
        false => Err(Failure::Host(format!(
            "{}: is there already, with other content: {}",
            target.display(),
            sort.nothing
        ))),
    }
}

/// Writes those files of one folder that are not there. The folder is made where it is absent.
fn write(image: &[u16], files: &[(&Wanted, bool)], sort: &Sort, bar: &Progress) -> Result<(), Failure> {
    let folder = files.first().and_then(|(file, _)| file.target.parent()).unwrap_or(Path::new("."));
    sweep(folder, sort);
    let missing: Vec<&Wanted> = files.iter().filter(|(_, there)| !there).map(|(file, _)| *file).collect();
    let Some(last) = missing.last() else { return Ok(()) };
    if !folder.exists() {
        fs::create_dir_all(folder).map_err(of_file(folder))?;
        replace::sync_folder(folder)?;
    }
    for file in &missing {
        let mut fresh = Fresh::beside(&file.target, None)?;
        fresh.fill(&bytes_of(image, file))?;
        fresh.place_new()?;
        bar.advance(file.pages.len() as u64);
    }
    replace::sync_folder(&last.target)
}

/// Removes what killed runs have left of such files, named `.NAME.nord-PROCESS`.
fn sweep(folder: &Path, sort: &Sort) {
    let Ok(entries) = fs::read_dir(folder) else { return };
    for entry in entries.flatten() {
        let name = entry.file_name().to_string_lossy().into_owned();
        let target = name.strip_prefix('.').and_then(|name| name.split_once(".nord-"));
        if let Some((target, _)) = target.filter(|(target, _)| (sort.is_name)(target)) {
            replace::sweep(&folder.join(target));
        }
    }
}
