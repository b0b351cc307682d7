//! Volumes by chance, all in one fill, converted there and back: done both times, the words of names and types alone changed between, the
//! volume sound at each point, and in the end the same words as at the start.

use crate::both::Both;
use crate::calls::{Answer, Call};
use crate::converts::{all_filled, Aims, Edge, Way};
use crate::fills::Fill;
use crate::names::{Field, What};
use crate::random::Random;
use crate::rounds::{Agreed, Round};
use crate::run::disagreed;
use crate::scene::Scene;
use crate::script::Script;
use crate::tally::{Met, Tally};
use crate::volumes::with_entries;
use std::panic::{catch_unwind, AssertUnwindSafe};
use std::time::Instant;

/// Pages of the smallest volume that has room for some of everything, and of the largest by chance.
const LEAST_PAGES: u32 = 16;
const MOST_PAGES: u32 = 200;

/// Converts so many volumes, the first of this number, and tells how many agreed. False where one did not.
pub fn run(seed: u64, first: u64, volumes: u64) -> bool {
    println!("seed {seed}");
    let (begun, mut tally) = (Instant::now(), Tally::default());
    for n in first..first + volumes {
        let mut round = Round { random: Random::of_round(seed, n), tally: &mut tally };
        let way = Way::ALL[(n % 2) as usize];
        let agreed = catch_unwind(AssertUnwindSafe(|| round.one_there_and_back(MOST_PAGES, way)));
        if !matches!(agreed, Ok(Ok(()))) {
            if let Ok(Err(seen)) = agreed {
                disagreed(seed, n, &seen);
            }
            println!("{} volumes agreed, the next did not\nagain with: compare --seed {seed} --first {n} --there-and-back 1", n - first);
            return false;
        }
    }
    let [zeros, apostrophe] = [Met::FromZeros, Met::FromApostrophe].map(|what| tally.times(what));
    println!("there and back: {zeros} volumes from zeros, {apostrophe} from an apostrophe, {:.1} s", begun.elapsed().as_secs_f64());
    println!("{volumes} volumes converted there and back, and all agreed");
    true
}

impl Round<'_> {
    /// So many volumes of at most so many pages, by turns from either fill.
    pub fn there_and_back(&mut self, pages: u32, volumes: u32) -> Agreed {
        (0..volumes).try_for_each(|n| self.one_there_and_back(pages, Way::ALL[n as usize % 2]))
    }

    /// One volume: by single calls, then by one run.
    fn one_there_and_back(&mut self, pages: u32, way: Way) -> Agreed {
        let start = self.volume_in_one_fill(pages, way);
        let between = all_filled(&start, way.to());
        let mut both = Both::new(start.clone());
        let calls = [way.call(), way.back().call()];
        let first = both.call(Call::Check, self.tally)?.call;
        both.demand(first.number == 0, "the volume is unsound before the first conversion", first)?;
        for (call, wanted) in calls.iter().zip([&between, &start]) {
            let answered = both.call(call.clone(), self.tally)?;
            both.demand(answered.call == Answer::default(), "a conversion is not just done", answered.call)?;
            both.demand(answered.check == first, "the check after a conversion is another", answered.check)?;
            let right = both.image() == wanted.as_slice();
            both.demand(right, "a conversion left other words", answered.call)?;
        }
        let script = Script::of(2, &calls);
        let played = both.run(None, script, self.tally)?.played;
        let right = played.made == 2 && played.replies.iter().all(|reply| *reply == Answer::default()) && both.image() == start.as_slice();
        both.demand(right, "a run there and back is not just done, or left other words", Answer::default())?;
        self.tally.met(if way == Way::ToApostrophe { Met::FromZeros } else { Met::FromApostrophe });
        Ok(())
    }

    /// A volume with users and files, all in the fill that the direction starts from; short names are among them, and full ones.
    fn volume_in_one_fill(&mut self, pages: u32, way: Way) -> Vec<u16> {
        let mut image = all_filled(&self.volume_with_files(pages), way.from());
        for (full, edge) in [(true, Edge::Full(What::User)), (false, Edge::Converted(What::File, 15))] {
            let scene = Scene::read(&image);
            if Field::all(&image, &scene).iter().any(|field| (field.fill() == Fill::Full) == full) {
                continue;
            }
            let aimed = Aims { random: &mut self.random, image: &image, scene: &scene, way }.aimed(edge);
            aimed.into_iter().flat_map(|aimed| aimed.words).for_each(|(at, word)| image[at] = word);
        }
        image
    }

    /// A volume as calls give it, with entries on several pages or by chance, or one that no calls give.
    fn volume_with_files(&mut self, most: u32) -> Vec<u16> {
        loop {
            let pages = self.random.between(LEAST_PAGES, most);
            let image = match self.random.below(4) {
                0 => with_entries(&mut self.random, pages.max(26)),
                1 => self.base(pages),
                _ => self.scattered_volume(pages),
            };
            if !Scene::read(&image).files.is_empty() {
                return image;
            }
        }
    }
}

#[cfg(test)]
mod tests {
    use super::*;

    /// The volumes are sound, and have what they are to have.
    #[test]
    fn volumes_have_full_and_short_names() {
        let mut tally = Tally::default();
        for (n, way) in (0..60).zip(Way::ALL.into_iter().cycle()) {
            let mut round = Round { random: Random::of_round(12, n), tally: &mut tally };
            let image = round.volume_in_one_fill(60, way);
            assert_eq!(second::check(&image).number, 0);
            let fields = Field::all(&image, &Scene::read(&image));
            assert!(fields.iter().all(|field| [Fill::Full, way.from()].contains(&field.fill())));
            assert!([Fill::Full, way.from()].iter().all(|fill| fields.iter().any(|field| field.fill() == *fill)));
            assert!([What::User, What::File, What::Type].iter().all(|what| fields.iter().any(|field| field.what == *what)));
        }
    }

    #[test]
    fn there_and_back_agrees() {
        assert!(run(13, 0, 20));
    }
}
