//! Stale bits and counts: damage to a sound volume that leaves its pointers good, and what a salvage must make of it. That is known from the
//! volume as it was: nothing of either program is asked.

use crate::random::Random;
use crate::scattered::Beyond;
use crate::scene::{Scene, User};
use crate::words::*;

/// The halves of a count that are wrong.
#[derive(Clone, Copy, Debug, PartialEq, Eq, PartialOrd, Ord)]
pub enum Half {
    Low,
    High,
    Both,
}

impl Half {
    pub const ALL: [Half; 3] = [Half::Low, Half::High, Half::Both];

    pub fn words(self) -> &'static str {
        match self {
            Half::Low => "the low half alone",
            Half::High => "the high half alone",
            Half::Both => "both halves",
        }
    }
}

/// What a salvage must do with a volume, however long its list is.
#[derive(Debug, PartialEq)]
pub enum Right {
    /// These are the words afterwards.
    Words(Vec<u16>),
    /// 13: by some user, by the sum.
    Overdrawn { user: bool, sum: bool },
}

/// What is right, with the sound volume that was damaged and its scene.
pub fn right(sound: &[u16], scene: &Scene, damaged: &[u16]) -> Right {
    let all_given: i64 = scene.users.iter().map(|user| i64::from(user.given)).sum();
    let system = i64::from(scene.pages) - i64::from(scene.unreserved) - all_given;
    let given = |user: &User| i64::from(pair(damaged, user.at + GIVEN));
    let left = i64::from(scene.pages) - system - scene.users.iter().map(given).sum::<i64>();
    let user = scene.users.iter().any(|user| i64::from(user.used) > given(user));
    if user || left < 0 {
        return Right::Overdrawn { user, sum: left < 0 };
    }
    let mut words = damaged.to_vec();
    put_pair(&mut words, UNRESERVED, left as u32);
    scene.users.iter().for_each(|user| put_pair(&mut words, user.at + USED, user.used));
    for page in 0..scene.pages {
        let (at, bit) = (scene.bit_at(page), 1 << (page % 16));
        words[at] = words[at] & !bit | sound[at] & bit;
    }
    Right::Words(words)
}

/// A volume being damaged.
pub struct Stale<'a> {
    pub random: &'a mut Random,
    pub sound: &'a [u16],
    pub scene: &'a Scene,
    /// The volume as the damage so far has left it.
    pub image: Vec<u16>,
}

impl<'a> Stale<'a> {
    pub fn new(random: &'a mut Random, sound: &'a [u16], scene: &'a Scene) -> Stale<'a> {
        Stale { random, sound, scene, image: sound.to_vec() }
    }

    /// A page's bit the other way.
    pub fn flip(&mut self, page: u32) {
        self.image[self.scene.bit_at(page)] ^= 1 << (page % 16);
    }

    pub fn some_page(&mut self) -> u32 {
        self.random.below(self.scene.pages)
    }

    /// The bit of a page that is held, or of one that is free.
    pub fn bit_of(&mut self, held: bool) -> Option<()> {
        let pages: Vec<u32> = (0..self.scene.pages).filter(|&page| self.scene.is_reserved(self.sound, page) == held).collect();
        (!pages.is_empty()).then_some(())?;
        let page = *self.random.pick(&pages);
        self.flip(page);
        Some(())
    }

    /// Bits from P on, in the word that holds P and in those behind it, if there are any.
    pub fn beyond(&mut self, beyond: Beyond) {
        let words = self.scene.pages.div_ceil(16) as usize;
        let run = self.scene.bit_run();
        let all = run.start as usize * PAGE..run.end as usize * PAGE;
        for at in all.clone().skip(words) {
            self.image[at] = self.random.word() | 1;
        }
        if !self.scene.pages.is_multiple_of(16) {
            let from = u16::MAX << (self.scene.pages % 16);
            let bits = match beyond {
                Beyond::Zeros => 0,
                Beyond::Ones => u16::MAX,
                Beyond::Chance => self.random.word(),
            };
            let word = &mut self.image[all.start + words - 1];
            *word = *word & !from | bits & from;
        }
    }

    /// A count gets other words in these halves.
    pub fn count(&mut self, at: usize, half: Half) {
        let parts = match half {
            Half::Low => at + 1..at + 2,
            Half::High => at..at + 1,
            Half::Both => at..at + 2,
        };
        for part in parts {
            let old = self.sound[part];
            let near = [old.wrapping_add(1), old.wrapping_sub(1), old ^ 0x8000, old ^ 1 << self.random.below(16)];
            self.image[part] = if self.random.one_in(3) { self.random.word() } else { *self.random.pick(&near) };
            if self.image[part] == old {
                self.image[part] ^= 1;
            }
        }
    }

    pub fn some_half(&mut self) -> Half {
        *self.random.pick(&Half::ALL)
    }

    /// Some user who fits.
    pub fn user(&mut self, fits: impl Fn(&User) -> bool) -> Option<&'a User> {
        let scene = self.scene;
        let all: Vec<&User> = scene.users.iter().filter(|user| fits(user)).collect();
        (!all.is_empty()).then(|| *self.random.pick(&all))
    }

    pub fn used(&mut self, user: &User, half: Half) {
        self.count(user.at + USED, half);
    }

    pub fn give(&mut self, user: &User, given: u32) {
        put_pair(&mut self.image, user.at + GIVEN, given);
    }

    /// A user holds more than he is given.
    pub fn overdrawn_by_user(&mut self) -> Option<()> {
        let user = self.user(|user| user.used > 0)?;
        let less = *self.random.pick(&[0, user.used / 2, user.used - 1, user.used - 1]);
        self.give(user, less);
        Some(())
    }

    /// Given adds up to more than there is: just so, by far, or so that a sum of 32 bits would not show it.
    pub fn overdrawn_by_sum(&mut self) -> Option<()> {
        let user = self.user(|_| true)?;
        let most = user.given + self.scene.unreserved;
        let other = self.user(|other| other.index != user.index && other.used == 0);
        match (self.random.below(4), other) {
            (0, Some(other)) => {
                self.give(user, user.given + (1 << 31));
                self.give(other, other.given + (1 << 31));
            }
            (1, _) => self.give(user, most + 65_536),
            (2, _) => self.give(user, u32::MAX),
            _ => self.give(user, most + 1),
        }
        Some(())
    }

    /// An unused entry gets any words.
    pub fn unused(&mut self) -> Option<()> {
        let entries = unused_users(self.sound, self.scene);
        (!entries.is_empty()).then_some(())?;
        let at = *self.random.pick(&entries);
        self.random.fill(&mut self.image[at..at + 32]);
        self.image[at] &= 0x7FFF;
        self.image[at + USED + 1] |= 1;
        Some(())
    }

    /// Bits and counts by chance.
    pub fn by_chance(&mut self) {
        for _ in 0..self.random.between(1, 5) {
            match self.random.below(14) {
                0..=4 => (0..self.random.between(1, 6)).for_each(|_| {
                    let page = self.some_page();
                    self.flip(page);
                }),
                5 | 6 => self.words_by_chance(),
                7 | 8 => self.user(|_| true).into_iter().for_each(|user| {
                    let half = self.some_half();
                    self.used(user, half);
                }),
                9 | 10 => {
                    let half = self.some_half();
                    self.count(UNRESERVED, half);
                }
                11 => self.beyond(Beyond::Chance),
                12 => self.unused().unwrap_or_default(),
                _ => self.given_by_chance().unwrap_or_default(),
            }
        }
    }

    /// One word of bits, or all of them, those from P on too.
    fn words_by_chance(&mut self) {
        let first = self.scene.bit_at(0);
        if self.random.one_in(6) {
            let words = self.scene.pages.div_ceil(16) as usize;
            let bits = &mut self.image[first..first + words];
            match self.random.below(3) {
                0 => bits.fill(0),
                1 => bits.fill(u16::MAX),
                _ => self.random.fill(bits),
            }
        } else {
            let page = self.some_page();
            self.image[self.scene.bit_at(page)] = self.random.word();
        }
    }

    /// Another given count: one that is right with another unreserved, or one that is not.
    fn given_by_chance(&mut self) -> Option<()> {
        match self.random.below(8) {
            0 => self.overdrawn_by_user(),
            1 => self.overdrawn_by_sum(),
            _ => {
                let user = self.user(|_| true)?;
                let given = self.random.between(user.used, user.given + self.scene.unreserved);
                self.give(user, given);
                Some(())
            }
        }
    }
}

/// The entries on user pages that are not used.
pub fn unused_users(image: &[u16], scene: &Scene) -> Vec<usize> {
    let entries = scene.user_pages.iter().flat_map(|&(_, page)| (0..32).map(move |n| entry_at(page, n)));
    entries.filter(|&at| image[at] & 0x8000 == 0).collect()
}

#[cfg(test)]
mod tests {
    use super::*;
    use crate::lists::differing;
    use crate::volumes::with_names;

    /// What is right is the volume as it was, but for bits from P on, unused entries, and given.
    #[test]
    fn what_is_right_is_what_was() {
        let mut random = Random::of_round(21, 0);
        let sound = with_names(&mut random, 25);
        let scene = Scene::read(&sound);
        let mut stale = Stale::new(&mut random, &sound, &scene);
        (0..25).for_each(|page| stale.flip(page));
        stale.count(UNRESERVED, Half::Both);
        stale.used(&scene.users[0], Half::High);
        assert_eq!(differing(&sound, &stale.image).len(), 5);
        assert_eq!(right(&sound, &scene, &stale.image), Right::Words(sound.clone()));
        stale.beyond(Beyond::Ones);
        stale.give(&scene.users[1], scene.users[1].given + scene.unreserved);
        let Right::Words(words) = right(&sound, &scene, &stale.image) else { panic!("not overdrawn") };
        assert_eq!((pair(&words, UNRESERVED), words[scene.bit_at(24)] >> 9), (0, 127));
        stale.give(&scene.users[1], scene.users[1].given + scene.unreserved + 1);
        assert_eq!(right(&sound, &scene, &stale.image), Right::Overdrawn { user: false, sum: true });
        stale.give(&scene.users[0], scene.users[0].used - 1);
        assert_eq!(right(&sound, &scene, &stale.image), Right::Overdrawn { user: true, sum: false });
    }
}
