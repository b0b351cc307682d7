//! The rounds of a run, each on one volume: what each kind does.

use crate::both::{copy_of, Answered, Both, Disagreement};
use crate::calls::{Call, NAMES};
use crate::choose::{Choice, Profile, ASKING, FILES, GROWING, MIXED, PROFILES, RUNS, SHRINKING, USERS};
use crate::converts::{all_filled, Way};
use crate::cycle::{Kind, Size};
use crate::fills::{refill, refilled};
use crate::meets::{leaves, meets};
use crate::random::Random;
use crate::salvage_rounds::told_all;
use crate::scattered::scattered;
use crate::scene::Scene;
use crate::tally::{Met, Tally};
use crate::volumes::*;
use crate::words::*;

pub type Agreed = Result<(), Box<Disagreement>>;

/// A round at work: its own random numbers, and the run's tally.
pub struct Round<'a> {
    pub random: Random,
    pub tally: &'a mut Tally,
}

impl Round<'_> {
    pub fn run(&mut self, kind: Kind, size: Size) -> Agreed {
        let pages = match size {
            Size::Of(pages) => pages,
            Size::Between(low, high) => self.random.between(low, high),
        };
        self.tally.volume(pages);
        match kind {
            Kind::Sequence { calls } => self.sequence(pages, calls),
            Kind::Full => self.full(pages),
            Kind::Runs => self.runs(pages),
            Kind::LongFile { from } => self.long_file(pages, from),
            Kind::Users { from } => self.users(pages, from),
            Kind::Files => self.files(pages),
            Kind::AllFiles => self.all_files(),
            Kind::Lengths => self.lengths(pages),
            Kind::Scattered { calls } => self.scattered(pages, calls),
            Kind::Damaged { times } => self.damaged(pages, times),
            Kind::DamagedLarge => self.damaged_large(pages),
            Kind::Twice { times } => self.twice(times),
            Kind::Long { times } => self.long_files(times),
            Kind::Hostile => self.hostile(),
            Kind::Scripts { scripts, steps } => self.scripts(pages, scripts, steps),
            Kind::EdgeScripts => self.edge_scripts(pages),
            Kind::DamagedScripts { times } => self.damaged_scripts(pages, times),
            Kind::AskingScripts => self.asking_scripts(pages),
            Kind::SalvageScripts { images } => self.salvage_scripts(pages, images),
            Kind::Searches => self.searches(pages),
            Kind::LargeSearches => self.large_searches(pages),
            Kind::Names => self.names(pages),
            Kind::Converts { scattered } => self.converts(pages, scattered),
            Kind::ThereAndBack { volumes } => self.there_and_back(pages, volumes),
            Kind::Salvages { ground, times } => self.salvages(ground, pages, times),
            Kind::SalvagesLarge => self.salvages_large(pages),
            Kind::Salvaged { volumes } => self.salvaged(pages, volumes),
            Kind::BorderSearches => self.border_searches(pages),
            Kind::Packs => self.packs(pages),
            Kind::HighPages => self.high_pages(pages),
        }
    }

    /// So many calls by chance, with a wrong length now and then, and with other bytes behind some names.
    fn calls(&mut self, both: &mut Both, profile: &Profile, count: u32) -> Agreed {
        for _ in 0..count {
            let scene = Scene::read(both.image());
            if self.random.one_in(8) {
                both.put(&refill(&mut self.random, both.image(), &scene));
            }
            let mut choice = Choice { random: &mut self.random, image: both.image(), scene: &scene };
            let (call, lent) = (choice.call(profile), choice.lent(60));
            self.one(both, &scene, lent, call)?;
        }
        Ok(())
    }

    /// One call, and what it met.
    pub fn one(&mut self, both: &mut Both, scene: &Scene, lent: Option<usize>, call: Call) -> Result<Answered, Box<Disagreement>> {
        let met = meets(both.image(), scene, &call);
        let before = matches!(call, Call::Salvage { .. }).then(|| copy_of(both.image()));
        let answered = both.lend(lent, call, self.tally)?;
        if let Some(before) = before {
            told_all(both, &before, lent, &answered)?;
        }
        for (what, number) in met {
            if answered.call.number == number && lent.is_none() {
                self.tally.met(what);
            }
        }
        if let (Some(what), 0) = (leaves(scene, both.image()), answered.call.number) {
            self.tally.met(what);
        }
        Ok(answered)
    }

    /// A call on the scene as it stands.
    fn plain(&mut self, both: &mut Both, call: Call) -> Result<Answered, Box<Disagreement>> {
        let scene = Scene::read(both.image());
        self.one(both, &scene, None, call)
    }

    fn sequence(&mut self, pages: u32, calls: u32) -> Agreed {
        let mut both = Both::new(blank(&mut self.random, pages));
        both.call(Call::Check, self.tally)?;
        let bit_page = if self.random.one_in(3) { None } else { Some(self.random.between(1, last_bit_start(pages)) as usize) };
        both.call(Call::Format { name: b"YARD".to_vec(), bit_page }, self.tally)?;
        for part in 0..calls / 10 {
            let profile = if part == 0 { MIXED } else { *self.random.pick(&PROFILES) };
            self.calls(&mut both, &profile, 10)?;
        }
        Ok(())
    }

    fn full(&mut self, pages: u32) -> Agreed {
        let keep = self.random.below(3);
        let mut both = Both::new(with_owner(&mut self.random, pages, keep));
        for _ in 0..3 {
            self.calls(&mut both, &GROWING, 40)?;
            self.calls(&mut both, &MIXED, 10)?;
            self.calls(&mut both, &SHRINKING, 5)?;
        }
        Ok(())
    }

    fn runs(&mut self, pages: u32) -> Agreed {
        let mut both = Both::new(with_owner(&mut self.random, pages, 3));
        for n in 0..12 {
            self.calls(&mut both, &RUNS, 6)?;
            let longest = Scene::read(both.image()).longest_run(both.image()) as usize;
            for count in [longest + 1, longest] {
                let name = format!("RUN-{n}-{count}").into_bytes();
                self.plain(&mut both, Call::CreateContiguous { user: 0, name, kind: Vec::new(), created: n, count })?;
            }
            self.calls(&mut both, &SHRINKING, 2)?;
        }
        Ok(())
    }

    /// Up past the edge, down below it and up again, with questions between.
    fn long_file(&mut self, pages: u32, from: u32) -> Agreed {
        let mut both = Both::new(with_long_file(&mut self.random, pages, from));
        let rounds = if pages > 2_048 { 1 } else { 2 };
        for _ in 0..rounds {
            for (up, times) in [(true, 8), (false, 7)] {
                for _ in 0..times {
                    let call = if up { Call::Grow { user: 0, file: 0 } } else { Call::Shrink { user: 0, file: 0 } };
                    self.plain(&mut both, call)?;
                }
                self.calls(&mut both, &ASKING, 6)?;
            }
        }
        self.plain(&mut both, Call::DeleteFile { user: 0, file: 0 })?;
        self.calls(&mut both, &MIXED, 6)
    }

    fn users(&mut self, pages: u32, from: u32) -> Agreed {
        let mut both = Both::new(with_users(&mut self.random, pages, from));
        for n in from..from + 6 {
            self.plain(&mut both, Call::CreateUser { name: nth(1_000 + n) })?;
            self.calls(&mut both, &FILES, 3)?;
        }
        for user in [from as usize, 64, 65, 255, 254] {
            self.plain(&mut both, Call::DeleteUser { user })?;
            self.calls(&mut both, &USERS, 8)?;
        }
        self.calls(&mut both, &MIXED, 30)
    }

    fn files(&mut self, pages: u32) -> Agreed {
        let mut both = Both::new(with_files(&mut self.random, pages, 253));
        for n in 0..5 {
            self.plain(&mut both, Call::CreateIndexed { user: 0, name: nth(500 + n), kind: b"X".to_vec(), created: n })?;
        }
        let (name, kind) = (b"RUN".to_vec(), Vec::new());
        self.plain(&mut both, Call::CreateContiguous { user: 0, name, kind, created: 1, count: 1 })?;
        for _ in 0..4 {
            let file = self.random.below(256) as usize;
            self.plain(&mut both, Call::DeleteFile { user: 0, file })?;
            self.calls(&mut both, &FILES, 12)?;
        }
        Ok(())
    }

    fn all_files(&mut self) -> Agreed {
        let mut both = Both::new(all_files(&mut self.random));
        let (user, file) = (self.random.below(256) as usize, self.random.below(256) as usize);
        let new = Call::CreateIndexed { user, name: b"NEW".to_vec(), kind: Vec::new(), created: 1 };
        let first = self.plain(&mut both, new.clone())?;
        assert_eq!(first.call.number, 8, "the maker of 65,536 files did not make them all");
        self.plain(&mut both, Call::DeleteFile { user, file })?;
        self.plain(&mut both, new)?;
        self.plain(&mut both, Call::Give { user, count: 40 })?;
        self.plain(&mut both, Call::Grow { user, file })?;
        self.calls(&mut both, &ASKING, 4)?;
        self.calls(&mut both, &MIXED, 4)?;
        self.stale_by_chance(both.image(), 2)?;
        self.all_converted(both.image())
    }

    /// Every entry that an image can have, converted there and back.
    fn all_converted(&mut self, image: &[u16]) -> Agreed {
        let start = all_filled(image, Way::ToApostrophe.from());
        let mut both = Both::new(start.clone());
        for way in Way::ALL {
            let answered = both.call(way.call(), self.tally)?;
            let right = answered.call.number == 0 && both.image() == all_filled(&start, way.to());
            if !right {
                return Err(both.wrong("a conversion of all entries is not done, or left other words", answered.call));
            }
        }
        Ok(())
    }

    /// Every call with every wrong length of this image, or, where it is one page too long, with one of those that are too long; then some
    /// with right ones.
    fn lengths(&mut self, pages: u32) -> Agreed {
        let (words, most) = (pages as usize * PAGE, MOST_PAGES as usize * PAGE);
        let mut both = Both::new(vec![0; words]);
        let name = b"YARD".to_vec();
        both.lend(Some(words.min(most)), Call::Format { name: name.clone(), bit_page: None }, self.tally)?;
        let scene = Scene::read(both.image());
        for which in 0..NAMES.len() {
            let mut profile: Profile = [0; NAMES.len()];
            profile[which] = 1;
            let lengths = match words > most {
                true => vec![*self.random.pick(&[most + 1, words - 1, words])],
                false => vec![words - 1, 7 * PAGE, 8 * PAGE - 1, 8 * PAGE + 1, 0],
            };
            for lent in lengths.into_iter().filter(|&lent| lent <= words) {
                let call = Choice { random: &mut self.random, image: both.image(), scene: &scene }.call(&profile);
                both.lend(Some(lent), call, self.tally)?;
            }
        }
        both.call(Call::Format { name, bit_page: Some(1) }, self.tally)?;
        both.lend(Some(8 * PAGE), Call::Check, self.tally).map(|_| ())
    }

    fn scattered(&mut self, pages: u32, calls: u32) -> Agreed {
        let mut both = Both::new(self.scattered_volume(pages));
        let first = both.call(Call::Check, self.tally)?;
        assert_eq!(first.call.number, 0, "the maker of scattered volumes made an unsound one");
        self.tally.met(Met::ScatteredVolume);
        let profiles = [MIXED, ASKING, USERS, FILES, RUNS, GROWING, SHRINKING];
        for part in 0..calls / 5 {
            let profile = if part == 0 { ASKING } else { *self.random.pick(&profiles) };
            self.calls(&mut both, &profile, 5)?;
        }
        Ok(())
    }

    pub fn scattered_volume(&mut self, pages: u32) -> Vec<u16> {
        let users = self.random.between(1, 40);
        let files = self.random.between(1, 40);
        scattered(&mut self.random, pages, users, files)
    }

    /// A volume for damage: scattered, or as calls of the second program leave it.
    pub fn base(&mut self, pages: u32) -> Vec<u16> {
        if pages > 8 && self.random.one_in(2) || pages > 2_048 {
            return self.scattered_volume(pages);
        }
        let mut image = match pages {
            1_100.. => with_long_file(&mut self.random, pages, 1_024),
            _ => with_owner(&mut self.random, pages, pages / 4),
        };
        for n in 0..pages.min(60) {
            let scene = Scene::read(&image);
            let profile = if n < 20 { FILES } else { GROWING };
            let call = Choice { random: &mut self.random, image: &image, scene: &scene }.call(&profile);
            call.on_second(&mut image);
        }
        refilled(&mut self.random, &mut image);
        image
    }

    fn hostile(&mut self) -> Agreed {
        let mut image = full_of_entries(&mut self.random, 262_144, S | 10_000);
        let circle = self.random.one_in(2);
        shared_blocks(&mut image, circle);
        let mut both = Both::new(image.clone());
        let check = both.call(Call::WhoHolds { page: 10_000 }, self.tally)?.check;
        self.salvaged_as_checked(&mut both, &check)?;
        let last = 1_000 * PAGE + 32 * 65_535;
        both.put(&[(last + POINTER + 1, 16_384)]);
        both.call(Call::Grow { user: 255, file: 255 }, self.tally)?;
        last_two(&mut image, 50);
        let answered = Both::new(image).call(Call::WhoHolds { page: 50 }, self.tally)?;
        assert_eq!(answered.call.place.page, 50, "the maker of the last two holders made another page the lowest");
        let length = self.random.between(16_383, 16_384);
        Both::new(full_of_entries(&mut self.random, length, 1)).call(Call::Shrink { user: 0, file: 0 }, self.tally)?;
        Ok(())
    }
}
