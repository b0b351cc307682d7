//! A host's file that a command writes.

use crate::failure::{of_file, Failure};
use crate::replace::{self, Fresh};
use crate::store;
use std::fs::{self, Metadata};
use std::io::Write;
use std::os::unix::fs::MetadataExt;
use std::path::{Path, PathBuf};

/// As many links in a row are followed as Linux follows.
const MOST_LINKS: usize = 40;

/// A plain file is replaced whole; a device or a pipe just gets the bytes. A link is followed, to a file that is not there yet too. The image
/// that they come from is never the file.
pub fn save(path: &Path, image: &Path, bytes: &[u8]) -> Result<(), Failure> {
    let Ok(real) = fs::canonicalize(path) else {
        return replaced(&new_file(path)?, None, bytes);
    };
    let old = fs::metadata(&real).map_err(of_file(path))?;
    if is_image(&old, image)? {
        return Err(Failure::Usage(format!("{}: is the image itself", path.display())));
    }
    if !old.is_file() {
        return fs::OpenOptions::new()
            .write(true)
            .open(path)
            .and_then(|mut file| file.write_all(bytes))
            .map_err(of_file(path));
    }
    replaced(&real, Some(&old), bytes)
}

fn replaced(path: &Path, old: Option<&Metadata>, bytes: &[u8]) -> Result<(), Failure> {
    replace::sweep(path);
    let mut fresh = Fresh::beside(path, old)?;
    fresh.fill(bytes)?;
    fresh.put()
}

/// Whether the file is the image; one that comes by standard input may be a file too.
fn is_image(file: &Metadata, image: &Path) -> Result<bool, Failure> {
    let image = if image == Path::new(store::STANDARD) {
        Path::new("/dev/stdin")
    } else {
        image
    };
    let image = fs::metadata(image).map_err(of_file(image))?;
    Ok((file.dev(), file.ino()) == (image.dev(), image.ino()))
}

/// The file to be made for a path at which there is none: what a link there leads to. Its folder has to be there.
fn new_file(path: &Path) -> Result<PathBuf, Failure> {
    let mut file = path.to_path_buf();
    for _ in 0..MOST_LINKS {
        match fs::read_link(&file) {
            Ok(next) => file = replace::folder(&file).join(next),
            Err(_) => return with_folder(file, path),
        }
    }
    Err(Failure::Host(format!("{}: more than {MOST_LINKS} links in a row", path.display())))
}

fn with_folder(file: PathBuf, path: &Path) -> Result<PathBuf, Failure> {
    let folder = replace::folder(&file);
    match fs::metadata(folder) {
        Ok(there) if there.is_dir() => Ok(file),
        Ok(_) => Err(Failure::Host(format!("{}: {} is no folder", path.display(), folder.display()))),
        Err(error) => Err(Failure::Host(format!(
            "{}: the folder {}: {error}",
            path.display(),
            folder.display()
        ))),
    }
}
