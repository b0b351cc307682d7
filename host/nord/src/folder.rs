//! Many files into a folder of the host. All of them are written beside their places and synced before the first takes its place: where one cannot
//! be written, none is.

use crate::failure::{of_file, Failure};
use crate::pause;
use crate::replace::{self, Fresh};
use std::fs;
use std::os::unix::fs::MetadataExt;
use std::path::{Path, PathBuf};

/// A file that is to be in the folder.
pub struct New {
    pub path: PathBuf,
    pub bytes: Vec<u8>,
}

/// Puts the files into the folder, which is made where it is not there. The image that they come from is none of them.
pub fn put(folder: &Path, image: &Path, files: Vec<New>) -> Result<(), Failure> {
    let made = !folder.exists();
    if made {
        fs::create_dir_all(folder).map_err(of_file(folder))?;
    }
    let placed = written(image, files).and_then(place);
    if made && placed.is_err() {
        // Only an empty one goes.
        let _ = fs::remove_dir(folder);
    }
    placed
}

/// All files beside their places, on the disk.
fn written(image: &Path, files: Vec<New>) -> Result<Vec<Fresh>, Failure> {
    let mut all = Vec::new();
    for New { path, bytes } in files {
        let mut fresh = beside(&path, image)?;
        fresh.write(&bytes)?;
        all.push(fresh);
        pause::at("one written");
    }
    all.iter().try_for_each(Fresh::sync)?;
    pause::at("all written");
    Ok(all)
}

/// A new file beside the one that it is to replace, if there is one: a plain file that is not the image.
fn beside(path: &Path, image: &Path) -> Result<Fresh, Failure> {
    replace::sweep(path);
    let Ok(real) = fs::canonicalize(path) else {
        return Fresh::beside(path, None);
    };
    let old = fs::metadata(&real).map_err(of_file(path))?;
    let ours = fs::metadata(image).ok();
    if ours.is_some_and(|ours| (old.dev(), old.ino()) == (ours.dev(), ours.ino())) {
        return Err(Failure::Usage(format!("{}: is the image itself", path.display())));
    }
    match old.is_file() {
        true => Fresh::beside(&real, Some(&old)),
        false => Err(Failure::Host(format!("{}: is there and is no file", path.display()))),
    }
}

/// All files take their places, and the folders they are in are synced.
fn place(files: Vec<Fresh>) -> Result<(), Failure> {
    let last = files.last().map(|fresh| fresh.target().to_path_buf());
    files.into_iter().try_for_each(Fresh::place)?;
    last.map_or(Ok(()), |target| replace::sync_folder(&target))
}
