//! The image file: its bytes as words, high byte first, and its replacement under the lock.

use crate::answers::Refusal;
use crate::failure::{of_file, Failure};
use crate::image::{Image, LARGE};
use crate::replace::Fresh;
use crate::{chunks, lock, pause, replace, touched};
use proved::Reply;
use std::fs::{self, File, Metadata};
use std::io::{self, Read};
use std::os::unix::fs::MetadataExt;
use std::path::Path;
use std::time::Duration;

/// The bytes of a page.
pub const PAGE: usize = 2 * proved::PAGE;

/// The bytes of the largest image.
const MOST: u64 = (proved::MOST_PAGES * PAGE) as u64;

/// Standard input in the place of an image file.
pub const STANDARD: &str = "-";

/// Where the bytes of an image come from: a file, whose length is known and that stays, or a pipe or a device, which is read to its end.
enum Source {
    Plain(File),
    Pipe(Box<dyn Read>),
}

/// The image at a path, to be asked: for `-` standard input. A folder is none.
fn open(path: &Path) -> Result<Source, Failure> {
    if path == Path::new(STANDARD) {
        return Ok(Source::Pipe(Box::new(io::stdin().lock())));
    }
    let kind = fs::metadata(path).map_err(of_file(path))?.file_type();
    if kind.is_dir() {
        return Err(no_file(path));
    }
    let file = File::open(path).map_err(of_file(path))?;
    Ok(match kind.is_file() {
        true => Source::Plain(file),
        false => Source::Pipe(Box::new(file)),
    })
}

/// The image's name in a command that is shown: what came by standard input has none.
pub fn shown(path: &Path) -> &Path {
    match path == Path::new(STANDARD) {
        true => Path::new("IMAGE"),
        false => path,
    }
}

/// The words of an image that is only asked. No lock: writers put another file in its place and leave this one alone.
pub fn read(path: &Path) -> Result<Image, Failure> {
    match open(path)? {
        Source::Plain(file) => undisturbed(&file, path, once),
        Source::Pipe(mut pipe) => piped(&mut pipe, path),
    }
}

/// What the proved check says of a large image file, of which no more is read than it touches. Nothing of a small file, which is soon read, nor of a
/// pipe, which is read to its end: that can be opened only once, and is not opened here.
pub fn check(path: &Path) -> Result<Option<Checked>, Failure> {
    let is_large = |file: Metadata| file.is_file() && file.len() >= 2 * LARGE as u64;
    if path == Path::new(STANDARD) || !fs::metadata(path).is_ok_and(is_large) {
        return Ok(None);
    }
    let file = File::open(path).map_err(of_file(path))?;
    let checked = undisturbed(&file, path, |file, words| {
        let reply = touched::look(file, words, proved::check)?;
        Ok(Checked { reply, words })
    })?;
    Ok(Some(checked))
}

/// What the check says of an image of so many words.
pub struct Checked {
    pub reply: Reply,
    pub words: usize,
}

/// What becomes of the image after work that is done.
#[derive(Clone, Copy, Debug, PartialEq, Eq)]
pub enum Then {
    Replace,
    Keep,
}

/// Lets the work change a copy of the image and, if it is done, replaces the image by that copy.
pub fn change<T>(path: &Path, wait: u64, work: impl FnOnce(&mut [u16]) -> Result<T, Failure>) -> Result<T, Failure> {
    change_or_keep(path, wait, |image| Ok((work(image)?, Then::Replace)))
}

/// The same for work that says whether there is anything to replace the image for.
pub fn change_or_keep<T>(path: &Path, wait: u64, work: impl FnOnce(&mut [u16]) -> Result<(T, Then), Failure>) -> Result<T, Failure> {
    named(path)?;
    let given = path;
    if !fs::metadata(path).map_err(of_file(path))?.is_file() {
        return Err(no_file(path));
    }
    // A link is followed, so that the image is replaced and not the link.
    let path = &fs::canonicalize(path).map_err(of_file(path))?;
    let file = lock::take(path, Duration::from_secs(wait))?;
    pause::at("locked");
    replace::sweep(path);
    let [before, mut image] = undisturbed(&file, path, twice)?;
    pause::at("read");
    let (answer, then) = work(&mut image)?;
    if then == Then::Keep {
        return Ok(answer);
    }
    let mut fresh = Fresh::beside(path, Some(&file.metadata().map_err(of_file(path))?))?;
    fresh.fill_with_words(&image)?;
    unchanged(&file, path, &before)?;
    fresh.put()?;
    tell_other_names(&file, given);
    Ok(answer)
}

/// Makes an image file where there is none.
pub fn create(path: &Path, image: &[u16]) -> Result<(), Failure> {
    named(path)?;
    replace::sweep(path);
    let mut fresh = Fresh::beside(path, None)?;
    fresh.fill_with_words(image)?;
    fresh.put_new()
}

/// What is written has to have a name: standard input cannot be replaced.
fn named(path: &Path) -> Result<(), Failure> {
    match path == Path::new(STANDARD) {
        true => Err(Failure::Usage(
            "-: only a command that asks reads its image from standard input; one that writes an image needs a file (./- is one of that name)"
                .to_string(),
        )),
        false => Ok(()),
    }
}

/// Says that the file whose place was taken has other names, which keep the old image.
fn tell_other_names(old: &File, path: &Path) {
    let names = match old.metadata().map_or(0, |old| old.nlink()) {
        0 => return,
        1 => "1 other name of the old file (hard link) keeps".to_string(),
        more => format!("{more} other names of the old file (hard links) keep"),
    };
    eprintln!("nord: {}: {names} the old image", path.display());
}

/// The image is still the file that was read, byte for byte; programs that know nothing of the lock may have changed it.
fn unchanged(file: &File, path: &Path, before: &[u16]) -> Result<(), Failure> {
    let length = file.metadata().map_err(of_file(path))?.len();
    let same = length == 2 * before.len() as u64
        && lock::is_at(file, path)?
        && long_enough(chunks::begins_with(file, before), path)?.unwrap_or(false);
    match same {
        true => Ok(()),
        false => Err(Failure::Busy(format!(
            "{}: another program has changed it meanwhile; it is left as that program made it",
            path.display()
        ))),
    }
}

/// All words of the file.
fn once(file: &File, count: usize) -> io::Result<Image> {
    let mut words = Image::full(count);
    chunks::read(file, 0, &mut words)?;
    Ok(words)
}

/// The same, and a copy of them.
fn twice(file: &File, count: usize) -> io::Result<[Image; 2]> {
    let mut images = [(); 2].map(|()| Image::full(count));
    let [words, copy] = &mut images;
    chunks::read_twice(file, words, copy)?;
    Ok(images)
}

/// What is read of a file of so many words while nobody changes it. A length that the library cannot be asked about is refused as the library
/// would.
fn undisturbed<T>(file: &File, path: &Path, read: impl FnOnce(&File, usize) -> io::Result<T>) -> Result<T, Failure> {
    let stamp = || {
        file.metadata()
            .and_then(|now| Ok((now.len(), now.modified()?)))
            .map_err(of_file(path))
    };
    let at_first = stamp()?;
    let length = at_first.0;
    if length % 2 != 0 || length > MOST {
        return Err(Refusal::length(length).into());
    }
    pause::at("reading");
    match long_enough(read(file, length as usize / 2), path)? {
        Some(read) if stamp()? == at_first => Ok(read),
        _ => Err(Failure::Busy(format!(
            "{}: another program has changed it while it was read",
            path.display()
        ))),
    }
}

/// What came of reading a file, unless it was shorter than it was before.
fn long_enough<T>(read: io::Result<T>, path: &Path) -> Result<Option<T>, Failure> {
    match read {
        Err(error) if error.kind() == io::ErrorKind::UnexpectedEof => Ok(None),
        read => read.map(Some).map_err(of_file(path)),
    }
}

/// All words of a pipe. Of one that is longer than any image no more is read than shows that.
fn piped(pipe: &mut impl Read, path: &Path) -> Result<Image, Failure> {
    let (words, odd) = chunks::read_to_end(pipe, MOST as usize / 2).map_err(of_file(path))?;
    let length = 2 * words.len() as u64 + u64::from(odd);
    match length {
        _ if length > MOST => Err(Refusal::length(length).with("or more").into()),
        _ if odd => Err(Refusal::length(length).into()),
        _ => Ok(words.into()),
    }
}

/// A folder is no image; a device or a pipe is none that can be replaced.
fn no_file(path: &Path) -> Failure {
    Failure::Host(format!("{}: not a file", path.display()))
}

/// Bytes as words, the high byte first.
pub fn words(bytes: &[u8]) -> Vec<u16> {
    let mut words = vec![0; bytes.len() / 2];
    chunks::to_words(bytes, &mut words);
    words
}

/// Words as bytes, the high byte first.
pub fn bytes(words: &[u16]) -> Vec<u8> {
    let mut bytes = vec![0; 2 * words.len()];
    chunks::to_bytes(words, &mut bytes);
    bytes
}
