//! Damage: words to change on a sound volume. `aimed` has the damage for each rule; here is what it is made of, and damage by chance.

use crate::fills::put_name;
use crate::random::Random;
use crate::scene::{File, Scene};
use crate::words::*;

/// The words to change.
pub type Words = Vec<(usize, u16)>;

pub struct Damage<'a> {
    pub random: &'a mut Random,
    pub image: &'a [u16],
    pub scene: &'a Scene,
    pub words: Words,
}

impl<'a> Damage<'a> {
    pub fn new(random: &'a mut Random, image: &'a [u16], scene: &'a Scene) -> Damage<'a> {
        Damage { random, image, scene, words: Vec::new() }
    }

    pub fn word(&mut self, at: usize, value: u16) -> Option<()> {
        self.words.push((at, value));
        Some(())
    }

    pub fn two(&mut self, at: usize, value: u32) -> Option<()> {
        self.words.push((at, (value >> 16) as u16));
        self.words.push((at + 1, value as u16));
        Some(())
    }

    pub fn copy(&mut self, from: usize, to: usize, count: usize) -> Option<()> {
        (0..count).for_each(|n| self.words.push((to + n, self.image[from + n])));
        Some(())
    }

    /// A number that names no page of a volume, but looks like one that does.
    pub fn no_page(&mut self, page: u32) -> u32 {
        let pages = self.scene.pages;
        let far = (page + 65_536).max(pages);
        *self.random.pick(&[pages, pages + 1, far, page | I, page | S, page | S | I, page | 1 << 29, I - 1, u32::MAX])
    }

    /// A number that the bit file cannot start with: page 0, one that names no page, or one from which the run ends past the volume.
    pub fn no_bit_page(&mut self) -> u32 {
        let (pages, past) = (self.scene.pages, last_bit_start(self.scene.pages) + 1);
        match self.random.below(5) {
            0 => 0,
            1 => self.random.between(past, pages),
            _ => self.no_page(self.scene.bit_page),
        }
    }

    pub fn some_file(&mut self, fits: impl Fn(&File) -> bool) -> Option<&'a File> {
        let scene = self.scene;
        let all: Vec<&File> = scene.files.iter().filter(|file| fits(file)).collect();
        (!all.is_empty()).then(|| *self.random.pick(&all))
    }

    pub fn some_user(&mut self) -> Option<usize> {
        let users = self.scene.users.len() as u32;
        (users > 0).then(|| self.random.below(users) as usize)
    }

    /// Makes a name or type wrong: a byte before its end that is not legal, or, as a type may have no bytes, a name that has none.
    pub fn wrong_name(&mut self, at: usize, words: usize) -> Option<()> {
        let mut bytes = to_bytes(&self.image[at..at + words]);
        let length = bytes_of(&self.image[at..at + words]).len();
        let illegal = *self.random.pick(b"az@[/:,.&( _\x01\x7F\x80\xA7\xC1");
        match self.random.below(4) {
            0 if words == 8 => bytes[0] = *self.random.pick(&ENDS),
            1 if words == 8 => bytes.fill(*self.random.pick(&ENDS)),
            _ => bytes[self.random.below(length.max(1) as u32) as usize] = illegal,
        }
        self.put(at, &from_bytes(&bytes))
    }

    /// Gives a field the name or type of another one, with its fill or with one of its own.
    pub fn same_name(&mut self, from: usize, to: usize, words: usize) -> Option<()> {
        if self.random.one_in(3) {
            return self.copy(from, to, words);
        }
        let mut field = vec![0; words];
        put_name(self.random, &mut field, &bytes_of(&self.image[from..from + words]));
        self.put(to, &field)
    }

    fn put(&mut self, at: usize, words: &[u16]) -> Option<()> {
        self.words.extend((at..).zip(words.iter().copied()));
        Some(())
    }

    /// A page that somebody holds.
    pub fn held_page(&mut self) -> u32 {
        let scene = self.scene;
        let mut held: Vec<u32> = scene.bit_run().collect();
        held.extend([scene.user_index, scene.object_block]);
        held.extend(scene.user_pages.iter().chain(&scene.object_indexes).chain(&scene.object_pages).map(|&(_, page)| page));
        held.extend(scene.files.iter().filter(|file| file.pages > 0).map(|file| file.page()));
        held.retain(|&page| page != 0);
        *self.random.pick(&held)
    }

    /// One or two words by chance, mostly where the check looks, mostly with a value that could be meant.
    pub fn by_chance(mut self) -> Words {
        for _ in 0..self.random.between(1, 2) {
            let at = self.place();
            let old = self.image[at];
            let pages = self.scene.pages as u16;
            let near =
                [0, 1, pages.wrapping_sub(1), pages, old.wrapping_add(1), old.wrapping_sub(1), 0x4000, 0x8000, 0xC000, u16::MAX, 2_048];
            let ended = [old & 0xFF, old & 0xFF00, old & 0xFF | 0x2700, old & 0xFF00 | 0x27];
            let value = match self.random.below(5) {
                0 => old ^ 1 << self.random.below(16),
                4 => *self.random.pick(&ended),
                1 => self.random.word(),
                2 => self.random.below(self.scene.pages) as u16,
                _ => *self.random.pick(&near),
            };
            self.words.push((at, value));
        }
        self.words
    }

    /// A place in the directory entry, a block, an entry or the bit file; seldom anywhere.
    fn place(&mut self) -> usize {
        let scene = self.scene;
        match self.random.below(8) {
            0 => VOLUME_NAME + self.random.below(16) as usize,
            1 if !scene.users.is_empty() => scene.users[self.some_user().unwrap_or(0)].at + self.random.below(32) as usize,
            2 | 3 if !scene.files.is_empty() => {
                let file = self.some_file(|_| true).map_or(0, |file| file.at);
                file + self.random.below(32) as usize
            }
            4 | 5 => self.held_page() as usize * PAGE + self.random.below(40) as usize,
            6 => {
                let words = bit_pages(scene.pages) * PAGE as u32;
                scene.bit_at(0) + self.random.below((scene.pages / 16 + 2).min(words)) as usize
            }
            _ => self.random.below(self.image.len() as u32) as usize,
        }
    }
}
