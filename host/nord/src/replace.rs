//! A file is replaced whole or not at all: a new file beside it, written and synced, is renamed over it, and the folder is synced. Until the
//! rename the old file is there, after it the new one.

use crate::failure::{of_file, Failure};
use crate::progress::Progress;
use crate::{chunks, pause};
use std::fs::{self, File, Metadata, OpenOptions, Permissions};
use std::io::{self, Write};
use std::os::unix::fs::{fchown, FileExt, MetadataExt, OpenOptionsExt, PermissionsExt};
use std::path::{Path, PathBuf};

/// The words of an image that are written before the bar goes on.
const AT_ONCE: usize = 256 * proved::PAGE;

/// A new file that is to take the target's place. It goes away if it does not get there.
pub struct Fresh {
    file: File,
    path: PathBuf,
    target: PathBuf,
}

impl Fresh {
    /// An empty file beside the target, with the owner and the permissions of the old one if there is one.
    pub fn beside(target: &Path, old: Option<&Metadata>) -> Result<Fresh, Failure> {
        let path = folder(target).join(format!("{}{}", prefix(target), std::process::id()));
        let mode = if old.is_some() { 0o600 } else { 0o666 };
        let file = OpenOptions::new()
            .write(true)
            .create_new(true)
            .mode(mode)
            .open(&path)
            .map_err(not_written(target))?;
        let fresh = Fresh {
            file,
            path,
            target: target.to_path_buf(),
        };
        // The lock tells a file in the making from what a killed run has left.
        fresh.file.try_lock().ok();
        if let Some(old) = old {
            keep_owner(&fresh.file, old);
            fresh
                .file
                .set_permissions(Permissions::from_mode(old.mode() & 0o7777))
                .map_err(not_written(target))?;
        }
        Ok(fresh)
    }

    /// The file whose place it is to take.
    pub fn target(&self) -> &Path {
        &self.target
    }

    /// Writes the bytes and waits until they are on the disk.
    pub fn fill(&mut self, bytes: &[u8]) -> Result<(), Failure> {
        self.fill_by_halves(bytes, |file, from, half| file.write_all_at(half, from as u64))
    }

    /// The same with words, the high byte first. Long parts of zeros become holes, so that a large volume with little in it is soon on the disk.
    pub fn fill_with_words(&mut self, words: &[u16]) -> Result<(), Failure> {
        let bar = Progress::start("writing", "pages", (words.len() / proved::PAGE) as u64);
        self.file.set_len(2 * words.len() as u64).map_err(not_written(&self.target))?;
        self.fill_by_halves(words, |file, from, half| {
            half.chunks(AT_ONCE).enumerate().try_for_each(|(number, words)| {
                chunks::write(file, from + number * AT_ONCE, words)?;
                bar.advance((words.len() / proved::PAGE) as u64);
                Ok(())
            })
        })
    }

    fn fill_by_halves<T>(&mut self, whole: &[T], write: impl Fn(&File, usize, &[T]) -> io::Result<()>) -> Result<(), Failure> {
        let (first, rest) = whole.split_at(whole.len() / 2);
        write(&self.file, 0, first).map_err(not_written(&self.target))?;
        pause::at("half");
        write(&self.file, first.len(), rest).map_err(not_written(&self.target))?;
        pause::at("written");
        self.file.sync_all().map_err(not_written(&self.target))?;
        pause::at("synced");
        Ok(())
    }

    /// Writes the bytes of one of many files, which are synced together.
    pub fn write(&mut self, bytes: &[u8]) -> Result<(), Failure> {
        self.file.write_all(bytes).map_err(not_written(&self.target))
    }

    /// Waits until the bytes are on the disk.
    pub fn sync(&self) -> Result<(), Failure> {
        self.file.sync_all().map_err(not_written(&self.target))
    }

    /// Takes the target's place as one of many files: their folder is synced after the last.
    pub fn place(self) -> Result<(), Failure> {
        fs::rename(&self.path, &self.target).map_err(not_written(&self.target))?;
        pause::at("placed");
        Ok(())
    }

    /// Takes the target's place.
    pub fn put(self) -> Result<(), Failure> {
        fs::rename(&self.path, &self.target).map_err(not_written(&self.target))?;
        pause::at("placed");
        sync_folder(&self.target)
    }

    /// Takes the target's place if nothing is there.
    pub fn put_new(self) -> Result<(), Failure> {
        let target = self.target.clone();
        self.place_new()?;
        sync_folder(&target)
    }

    /// The same for one of many files: their folder is synced after the last.
    pub fn place_new(self) -> Result<(), Failure> {
        match fs::hard_link(&self.path, &self.target) {
            Ok(()) => {}
            Err(error) if error.kind() == io::ErrorKind::AlreadyExists => return Err(is_there(&self.target)),
            Err(_) if self.target.exists() => return Err(is_there(&self.target)),
            // A file system without hard links.
            Err(_) => fs::rename(&self.path, &self.target).map_err(not_written(&self.target))?,
        }
        pause::at("placed");
        Ok(())
    }
}

impl Drop for Fresh {
    fn drop(&mut self) {
        let _ = fs::remove_file(&self.path);
    }
}

/// Removes what killed runs have left beside the target. A file in the making is locked, and stays.
pub fn sweep(target: &Path) {
    let Ok(entries) = fs::read_dir(folder(target)) else { return };
    let files = entries.flatten().filter(|entry| entry.file_type().is_ok_and(|kind| kind.is_file()));
    for path in files.map(|entry| entry.path()).filter(|path| is_leftover(path, target)) {
        let Ok(file) = File::open(&path) else { continue };
        // A run killed after it has put a new file in place leaves a second name of that file.
        let second_name = crate::lock::is_at(&file, target).unwrap_or(false);
        if second_name || file.try_lock().is_ok() {
            let _ = fs::remove_file(&path);
        }
    }
}

fn is_leftover(path: &Path, target: &Path) -> bool {
    let name = path.file_name().unwrap_or_default().to_string_lossy();
    let number = name.strip_prefix(&prefix(target)).unwrap_or_default();
    !number.is_empty() && number.bytes().all(|byte| byte.is_ascii_digit())
}

/// New files are named `.NAME.nord-PROCESS`.
fn prefix(target: &Path) -> String {
    format!(".{}.nord-", target.file_name().unwrap_or_default().to_string_lossy())
}

/// The folder that a file is in.
pub fn folder(target: &Path) -> &Path {
    match target.parent() {
        Some(parent) if parent != Path::new("") => parent,
        _ => Path::new("."),
    }
}

/// The old owner and group, or the group alone, as far as the system lets us.
fn keep_owner(file: &File, old: &Metadata) {
    if fchown(file, Some(old.uid()), Some(old.gid())).is_err() {
        let _ = fchown(file, None, Some(old.gid()));
    }
}

/// Syncs the folder that a new file is in.
pub fn sync_folder(target: &Path) -> Result<(), Failure> {
    let synced = File::open(folder(target)).and_then(|folder| folder.sync_all());
    synced.map_err(|error| {
        Failure::Host(format!(
            "{}: the new file is in place, but its folder could not be synced: {error}",
            target.display()
        ))
    })
}

fn not_written(target: &Path) -> impl Fn(io::Error) -> Failure + '_ {
    move |error| match target.exists() {
        true => Failure::Host(format!("{}: not replaced, the old one is as it was: {error}", target.display())),
        false => of_file(target)(error),
    }
}

fn is_there(target: &Path) -> Failure {
    Failure::Host(format!("{}: is there already", target.display()))
}
