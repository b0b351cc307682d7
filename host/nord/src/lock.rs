//! Keeps two writers of an image apart: an advisory lock (flock) on the image file itself, which the system lets go when a process ends,
//! however it ends. A writer puts a new file in the image's place, so whoever gets a lock looks again whether the file he has locked is
//! still the image, and else begins anew with the one that is.

use crate::failure::{of_file, Failure};
use crate::pause;
use std::fs::{File, OpenOptions, TryLockError};
use std::os::unix::fs::MetadataExt;
use std::path::Path;
use std::time::{Duration, Instant};

/// The image, open and locked. One who may not write the file gets no lock, though he could put another in its place.
pub fn take(path: &Path, wait: Duration) -> Result<File, Failure> {
    let start = Instant::now();
    let mut told = false;
    loop {
        let file = OpenOptions::new().read(true).write(true).open(path).map_err(of_file(path))?;
        pause::at("opened");
        match file.try_lock() {
            Ok(()) if is_at(&file, path)? => return Ok(file),
            Ok(()) => continue,
            Err(TryLockError::Error(error)) => return Err(of_file(path)(error)),
            Err(TryLockError::WouldBlock) if start.elapsed() < wait => {
                if !told && start.elapsed() > Duration::from_secs(1) {
                    eprintln!("nord: {}: waiting for another writer", path.display());
                    told = true;
                }
                std::thread::sleep(Duration::from_millis(20));
            }
            Err(TryLockError::WouldBlock) => return Err(Failure::Busy(format!("{}: locked by another writer", path.display()))),
        }
    }
}

/// Whether the open file is the one at that path.
pub fn is_at(file: &File, path: &Path) -> Result<bool, Failure> {
    let (open, there) = (
        file.metadata().map_err(of_file(path))?,
        std::fs::metadata(path).map_err(of_file(path))?,
    );
    Ok((open.dev(), open.ino()) == (there.dev(), there.ino()))
}
