//! Rounds of scripts: lists of calls, played by runs and by single calls.

use crate::both::{Both, Disagreement, Ran};
use crate::calls::{Answer, Call};
use crate::choose::{Choice, Profile, PROFILES};
use crate::damage::Damage;
use crate::lent::number_of;
use crate::lists::{lent as lent_list, to_second};
use crate::meets::run_meets;
use crate::rounds::{Agreed, Round};
use crate::scene::Scene;
use crate::script::{used, Asked, Part, Script};
use crate::tally::Met;
use crate::volumes::*;

/// All calls, formats among them.
pub const SCRIPTED: Profile = [2, 2, 2, 3, 4, 4, 1, 1, 6, 2, 6, 2, 8, 4, 16, 5, 2, 6, 3, 2, 2, 2];

/// Numbers that are no call's, and what is added to a call's for one: it is the call's if only its last byte or word is looked at.
const NO_CALLS: [u32; 5] = [0, 23, 24, u32::MAX - 1, u32::MAX];
const ADDED: [u32; 4] = [32, 256, 65_536, 1 << 31];

/// Room for changes where a run's salvages mostly have none to tell.
const LISTS: [usize; 6] = [0, 0, 1, 2, 3, 8];

/// How far behind the end a part may end that does not lie in its slice.
const PAST: [u32; 7] = [1, 2, 5, 1_024, 1 << 31, u32::MAX - 3, u32::MAX];

impl Round<'_> {
    /// Scripts one after the other on one volume, a wrong length among them now and then.
    pub fn scripts(&mut self, pages: u32, scripts: u32, steps: u32) -> Agreed {
        let mut both = Both::new(self.volume_for_scripts(pages));
        for _ in 0..scripts {
            let profile = if self.random.one_in(2) { SCRIPTED } else { *self.random.pick(&PROFILES) };
            let script = self.script(both.image(), &profile, steps, 25);
            let scene = Scene::read(both.image());
            let lent = Choice { random: &mut self.random, image: both.image(), scene: &scene }.lent(12);
            self.play(&mut both, lent, script)?;
        }
        Ok(())
    }

    /// Words by chance, a formatted volume with one user, or one that no calls give.
    fn volume_for_scripts(&mut self, pages: u32) -> Vec<u16> {
        match self.random.below(4) {
            0 => blank(&mut self.random, pages),
            1 => self.scattered_volume(pages),
            _ => with_owner(&mut self.random, pages, pages / 4),
        }
    }

    /// Scripts on an image that breaks a rule, for each of the rules: one by chance, one that begins with a salvage, and one with a question.
    pub fn damaged_scripts(&mut self, pages: u32, times: u32) -> Agreed {
        let base = self.base(pages);
        let scene = Scene::read(&base);
        let mut both = Both::new(base.clone());
        for rule in (0..times).flat_map(|_| 1..=10) {
            let Some(words) = Damage::new(&mut self.random, &base, &scene).aimed(rule) else { continue };
            let asking = [Call::WhoHolds { page: 0 }, Call::ReadPage { user: 0, file: 0, position: 0 }];
            let asking = Asked::of(self.random.pick(&asking).clone());
            for first in [None, Some(Asked::Salvage), Some(asking)] {
                both.put(&words);
                let mut script = self.script(both.image(), &SCRIPTED, 5, 4);
                script.room += usize::from(first.is_some());
                script.asked.splice(0..0, first);
                self.play(&mut both, None, script)?;
                both.restart();
            }
        }
        Ok(())
    }

    /// Scripts that go past the edges: the longest run, 256 users, 256 files of one, and a file's 512 pages where the volume has room for
    /// them.
    pub fn edge_scripts(&mut self, pages: u32) -> Agreed {
        self.no_run(pages)?;
        let (name, kind) = (|n: u32| nth(1_000 + n), b"X".to_vec());
        let user = |n: u32| Call::CreateUser { name: name(n) };
        let mut both = Both::new(with_users(&mut self.random, pages, 253));
        self.play(&mut both, None, whole((0..6).map(user)))?;
        self.play(&mut both, None, whole([Call::CreateUser { name: nth(0) }].into_iter()))?;
        let file = |n: u32| Call::CreateIndexed { user: 0, name: name(n), kind: kind.clone(), created: n };
        let mut both = Both::new(with_files(&mut self.random, pages, 253));
        self.play(&mut both, None, whole((0..6).map(file)))?;
        self.play(&mut both, None, whole([Call::DeleteUser { user: 0 }].into_iter()))?;
        if pages < 600 {
            return Ok(());
        }
        let mut both = Both::new(with_long_file(&mut self.random, pages, 508));
        let (grow, shrink) = (Call::Grow { user: 0, file: 0 }, Call::Shrink { user: 0, file: 0 });
        let up_and_down = (0..16).map(|n| if n < 8 { grow.clone() } else { shrink.clone() });
        self.play(&mut both, None, whole(up_and_down.chain([Call::DeleteFile { user: 0, file: 0 }])))?;
        Ok(())
    }

    /// A contiguous file of one page, then one that is longer than any run.
    fn no_run(&mut self, pages: u32) -> Agreed {
        let mut both = Both::new(with_owner(&mut self.random, pages, 3));
        let longest = Scene::read(both.image()).longest_run(both.image()) as usize;
        let file = |(n, count): (u32, usize)| Call::CreateContiguous { user: 0, name: nth(n), kind: Vec::new(), created: n, count };
        self.play(&mut both, None, whole((0..).zip([1, longest + 1, 1]).map(file)))?;
        Ok(())
    }

    /// Plays a script, and notes what it met.
    pub fn play(&mut self, both: &mut Both, lent: Option<usize>, script: Script) -> Result<Ran, Box<Disagreement>> {
        let unsound = second::check(both.image()).number == 3;
        let ran = both.run(lent, script.clone(), self.tally)?;
        run_meets(&script, &ran.played).into_iter().for_each(|what| self.tally.met(what));
        let by_format = matches!(script.asked.first(), Some(Asked::Call(Call::Format { .. })));
        if unsound && by_format && ran.played.made > 1 && ran.played.replies[1].number == 0 {
            self.tally.met(Met::FormatOnUnsound);
        }
        Ok(ran)
    }

    /// A script of so many steps, each chosen on the image as those before it leave it. Of the calls that would be refused one in so many is
    /// taken, and a script may have a step that is none.
    pub fn script(&mut self, image: &[u16], profile: &Profile, steps: u32, refused: u32) -> Script {
        let mut image = image.to_vec();
        let list = *self.random.pick(&LISTS);
        let mut asked = Vec::new();
        for _ in 0..5 * steps {
            let scene = Scene::read(&image);
            let call = Choice { random: &mut self.random, image: &image, scene: &scene }.call(profile);
            let answer = call.on_second_with(&mut image, &mut to_second(&lent_list(list)));
            if goes_on(&call, &answer) || self.random.one_in(refused) {
                asked.push(Asked::of(call));
            }
            if asked.len() == steps as usize {
                break;
            }
        }
        if self.random.one_in(2) {
            self.odd(&mut asked);
        }
        Script { room: self.room(asked.len() as u32) as usize, list, asked }
    }

    /// Puts a step that is none before a call of the script: the same with a number that is no call's, or with a part outside.
    fn odd(&mut self, asked: &mut Vec<Asked>) {
        let part = *self.random.pick(&Part::ALL);
        let users: Vec<usize> = (0..asked.len()).filter(|&n| used(asked[n].call()).contains(&part)).collect();
        let (place, odd) = if users.is_empty() || self.random.one_in(4) {
            let place = self.random.below(asked.len().max(1) as u32) as usize;
            let call = asked.get(place).map_or(Call::Check, |asked| asked.call().clone());
            let number = if self.random.one_in(2) { *self.random.pick(&NO_CALLS) } else { number_of(&call) + *self.random.pick(&ADDED) };
            (place, Asked::NoCall { number, call })
        } else {
            let place = *self.random.pick(&users);
            (place, Asked::Outside { part, past: *self.random.pick(&PAST), call: asked[place].call().clone() })
        };
        asked.insert(place, odd);
    }

    /// Room for replies: mostly some more than there are steps, now and then less.
    fn room(&mut self, steps: u32) -> u32 {
        match self.random.below(4) {
            0 => self.random.below(steps + 1),
            1 => steps,
            _ => steps + self.random.between(1, 4),
        }
    }
}

/// Whether a run would go on behind a call that answers so; one that reads a page answers no number.
fn goes_on(call: &Call, answer: &Answer) -> bool {
    answer.number == 0 && (answer.length > 0 || !matches!(call, Call::ReadPage { .. }))
}

/// A script of calls with room for all its replies.
pub fn whole(calls: impl Iterator<Item = Call>) -> Script {
    let calls: Vec<Call> = calls.collect();
    Script::of(calls.len() + 1, &calls)
}
