//! The memory of an image's words. A large one is mapped, with the system's large pages where it has them: the first touch of 32 MB in small
//! pages takes longer than reading them.

use memmap2::{Advice, MmapMut};
use std::ops::{Deref, DerefMut};

/// From so many words on memory is mapped: a large page of x86-64 and of most others.
pub const LARGE: usize = 1024 * 1024;

/// The words of an image, or of a part of it.
pub struct Image(Memory);

enum Memory {
    Listed(Vec<u16>),
    Mapped(MmapMut),
}

impl Image {
    /// So many zeros. Memory is taken where they are first touched.
    pub fn zeros(words: usize) -> Image {
        let mapped = (words >= LARGE).then(|| MmapMut::map_anon(2 * words).ok()).flatten();
        Image(mapped.map_or_else(|| Memory::Listed(vec![0; words]), Memory::Mapped))
    }

    /// The same for one that will be touched everywhere: in large pages, or in small ones where the system has no others.
    pub fn full(words: usize) -> Image {
        let image = Image::zeros(words);
        if let Memory::Mapped(map) = &image.0 {
            let _ = map.advise(Advice::HugePage);
        }
        image
    }
}

impl From<Vec<u16>> for Image {
    fn from(words: Vec<u16>) -> Image {
        Image(Memory::Listed(words))
    }
}

impl Deref for Image {
    type Target = [u16];

    fn deref(&self) -> &[u16] {
        match &self.0 {
            Memory::Listed(words) => words,
            // Any two bytes are a word, and a mapping begins at a page of the machine.
            Memory::Mapped(map) => unsafe { map.align_to() }.1,
        }
    }
}

impl DerefMut for Image {
    fn deref_mut(&mut self) -> &mut [u16] {
        match &mut self.0 {
            Memory::Listed(words) => words,
            // As above; and any word is two bytes.
            Memory::Mapped(map) => unsafe { map.align_to_mut() }.1,
        }
    }
}

#[cfg(test)]
mod tests {
    use super::*;

    #[test]
    fn listed_or_mapped_all_words_are_there() {
        for words in [0, 1, LARGE - 1, LARGE, LARGE + 1, 3 * LARGE + 7] {
            let mut image = Image::full(words);
            assert_eq!(image.len(), words);
            assert!(image.iter().all(|word| *word == 0));
            image.iter_mut().enumerate().for_each(|(number, word)| *word = number as u16);
            assert!(image.iter().enumerate().all(|(number, word)| *word == number as u16), "{words}");
        }
    }
}
