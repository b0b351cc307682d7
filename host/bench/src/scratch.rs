//! Files of a run: images for child processes, in the house's byte order or in this machine's own, and what is asked of them.

use crate::calls::Question;
use crate::volumes::Volume;
use memmap2::{Mmap, MmapMut, MmapOptions};
use std::fs::{self, File, OpenOptions};
use std::io::{self, Read};
use std::path::{Path, PathBuf};

/// A folder that goes away with the run.
pub struct Scratch {
    pub folder: PathBuf,
}

impl Scratch {
    pub fn new() -> io::Result<Scratch> {
        let folder = Path::new(env!("CARGO_MANIFEST_DIR"))
            .join("../../target/host")
            .join(format!("bench-{}", std::process::id()));
        fs::create_dir_all(&folder)?;
        Ok(Scratch {
            folder: folder.canonicalize()?,
        })
    }

    /// A folder in memory, if there is one with room for so many bytes: what is written through there waits for no disk.
    pub fn in_memory(bytes: usize) -> Option<Scratch> {
        let folder = Path::new("/dev/shm").join(format!("nord-bench-{}", std::process::id()));
        fs::create_dir(&folder).ok()?;
        let scratch = Scratch { folder };
        fs::write(scratch.path("room"), vec![0; bytes]).ok()?;
        fs::remove_file(scratch.path("room")).ok()?;
        Some(scratch)
    }

    pub fn path(&self, name: &str) -> PathBuf {
        self.folder.join(name)
    }

    pub fn house_volume(&self, volume: &Volume) -> io::Result<PathBuf> {
        write_house(&self.folder, &volume.name, &volume.words)
    }

    pub fn native_volume(&self, volume: &Volume) -> io::Result<PathBuf> {
        write_native(&self.folder, &volume.name, &volume.words, &volume.question)
    }
}

impl Drop for Scratch {
    fn drop(&mut self) {
        let _ = fs::remove_dir_all(&self.folder);
    }
}

/// Writes an image with the high byte first, as the house has it.
pub fn write_house(folder: &Path, name: &str, words: &[u16]) -> io::Result<PathBuf> {
    let path = folder.join(format!("{name}.img"));
    fs::write(&path, words.iter().flat_map(|word| word.to_be_bytes()).collect::<Vec<u8>>())?;
    Ok(path)
}

/// Writes an image in this machine's own byte order, which can be mapped, and beside it what is asked of it.
pub fn write_native(folder: &Path, name: &str, words: &[u16], question: &Question) -> io::Result<PathBuf> {
    let path = folder.join(format!("{name}.native"));
    fs::write(&path, bytes(words))?;
    fs::write(path.with_extension("ask"), question.to_text())?;
    Ok(path)
}

/// What is asked of an image in this machine's order.
pub fn question_of(image: &Path) -> io::Result<Question> {
    let text = fs::read_to_string(image.with_extension("ask"))?;
    Question::from_text(&text).ok_or_else(|| io::Error::other("no question beside the image"))
}

/// Reads an image with the high byte first, straight to where its words will be.
pub fn read_house(image: &Path) -> io::Result<Vec<u16>> {
    let mut file = File::open(image)?;
    let mut words = vec![0; file.metadata()?.len() as usize / 2];
    file.read_exact(bytes_mut(&mut words))?;
    words.iter_mut().for_each(|word| *word = u16::from_be(*word));
    Ok(words)
}

/// The bytes of words, as they lie in memory.
pub fn bytes(words: &[u16]) -> &[u8] {
    unsafe { words.align_to().1 }
}

/// The same, to change.
fn bytes_mut(words: &mut [u16]) -> &mut [u8] {
    unsafe { words.align_to_mut().1 }
}

/// Maps an image in this machine's order, to read.
pub fn map_native(image: &Path) -> io::Result<Mmap> {
    unsafe { Mmap::map(&File::open(image)?) }
}

/// Maps an image in this machine's order privately: what is written is not written to the file.
pub fn map_private(image: &Path) -> io::Result<MmapMut> {
    unsafe { MmapOptions::new().map_copy(&File::open(image)?) }
}

/// Maps an image in this machine's order, to change the file.
pub fn map_shared(image: &Path) -> io::Result<MmapMut> {
    unsafe { MmapMut::map_mut(&OpenOptions::new().read(true).write(true).open(image)?) }
}

/// The words of mapped bytes; a mapping starts on a page of the machine, so its words are aligned.
pub fn words(bytes: &[u8]) -> &[u16] {
    let (before, words, after) = unsafe { bytes.align_to() };
    assert!(before.is_empty() && after.is_empty());
    words
}

pub fn words_mut(bytes: &mut [u8]) -> &mut [u16] {
    let (before, words, after) = unsafe { bytes.align_to_mut() };
    assert!(before.is_empty() && after.is_empty());
    words
}
