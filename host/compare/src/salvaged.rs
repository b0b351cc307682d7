//! Volumes by chance whose bits and counts are then stale by chance, salvaged by both programs: done, each changed word told, sound, and as it
//! was before the damage; or refused as it must be.

use crate::random::Random;
use crate::rounds::{Agreed, Round};
use crate::run::{clear_progress, disagreed, progress};
use crate::tally::Tally;
use crate::volumes::{formatted, with_entries, with_long_file};
use std::panic::{catch_unwind, AssertUnwindSafe};
use std::time::Instant;

/// Damaged images of one volume.
const IMAGES: u64 = 20;

/// Pages of the largest volume by chance, and of one with a file that has a subindex block.
const MOST_PAGES: u32 = 200;
const LONG_PAGES: u32 = 600;

/// Salvages so many images, the first of the volume with this number, and tells what was met. False where one did not agree.
pub fn run(seed: u64, first: u64, images: u64) -> bool {
    println!("seed {seed}");
    let (begun, mut tally) = (Instant::now(), Tally::default());
    for volume in first..first + images.div_ceil(IMAGES) {
        let done = (volume - first) * IMAGES;
        progress(&format!("{done} images salvaged"), begun);
        let mut round = Round { random: Random::of_round(seed, volume), tally: &mut tally };
        let agreed = catch_unwind(AssertUnwindSafe(|| round.some_salvaged(MOST_PAGES, IMAGES.min(images - done))));
        if !matches!(agreed, Ok(Ok(()))) {
            clear_progress();
            if let Ok(Err(seen)) = agreed {
                disagreed(seed, volume, &seen);
            }
            println!(
                "{done} images agreed, one of the next did not\nagain with: compare --seed {seed} --first {volume} --salvaged {IMAGES}"
            );
            return false;
        }
    }
    clear_progress();
    println!("{}{}", tally.salvages.summary_of_met(), tally.salvaged_in_words());
    println!("{images} damaged images salvaged in {:.1} s, and all agreed", begun.elapsed().as_secs_f64());
    true
}

impl Round<'_> {
    /// So many volumes of at most so many pages.
    pub fn salvaged(&mut self, pages: u32, volumes: u32) -> Agreed {
        (0..volumes).try_for_each(|_| self.some_salvaged(pages, IMAGES))
    }

    /// So many damaged images of one volume.
    fn some_salvaged(&mut self, most: u32, images: u64) -> Agreed {
        let sound = self.volume_to_damage(most);
        self.stale_by_chance(&sound, images)
    }

    /// A volume as calls give it, with nobody on it, with entries on several pages or by chance; seldom with a long file; or one that no calls
    /// give.
    pub fn volume_to_damage(&mut self, most: u32) -> Vec<u16> {
        let pages = self.random.between(8, most);
        match self.random.below(64) {
            0 => with_long_file(&mut self.random, LONG_PAGES, 513),
            1..=4 => formatted(&mut self.random, pages),
            5..=12 => with_entries(&mut self.random, pages.max(26)),
            13..=28 => self.base(pages),
            _ => self.scattered_volume(pages),
        }
    }
}

#[cfg(test)]
mod tests {
    use super::*;

    #[test]
    fn salvages_agree() {
        assert!(run(23, 0, 150));
    }
}
