//! Scripts that begin with a salvage of stale bits and counts, and go on: with lists of every room from none to one more than enough. What the
//! salvage must answer, and what its list must tell, is known from the volume before the damage.

use crate::both::Both;
use crate::calls::Answer;
use crate::lists::{differing, written};
use crate::rounds::{Agreed, Round};
use crate::scene::Scene;
use crate::script::{Asked, Script};
use crate::script_rounds::SCRIPTED;
use crate::stale::{right, Right, Stale};
use crate::steps::Edge;
use proved::Change;

/// Steps behind the salvage.
const STEPS: u32 = 4;

/// Rooms for changes, from none on, where no list is long enough.
const ROOMS: usize = 3;

impl Round<'_> {
    /// A sound volume as it is, and so many times with stale bits and counts by chance.
    pub fn salvage_scripts(&mut self, pages: u32, images: u32) -> Agreed {
        let sound = self.volume_to_damage(pages);
        let scene = Scene::read(&sound);
        let mut both = Both::new(sound.clone());
        self.salvaged_by_scripts(&mut both, &sound, &Right::Words(sound.clone()))?;
        for _ in 0..images {
            let mut stale = Stale::new(&mut self.random, &sound, &scene);
            stale.by_chance();
            let image = stale.image;
            self.salvaged_by_scripts(&mut both, &image, &right(&sound, &scene, &image))?;
        }
        Ok(())
    }

    /// One stale image, with each room that there is to be.
    fn salvaged_by_scripts(&mut self, both: &mut Both, image: &[u16], right: &Right) -> Agreed {
        let (after, changes, rooms) = match right {
            Right::Words(words) => {
                let changes = differing(image, words);
                let rooms = changes.len() + 2;
                (words.as_slice(), changes, rooms)
            }
            Right::Overdrawn { .. } => (image, Vec::new(), ROOMS),
        };
        for list in 0..rooms {
            let number = match right {
                Right::Overdrawn { .. } => 13,
                Right::Words(_) if list < changes.len() => 14,
                Right::Words(_) => 0,
            };
            let told = if number == 0 { &changes[..] } else { &[] };
            both.put_image(image);
            self.salvaged_by_script(both, after, list, number, told)?;
            if number == 14 && list + 1 == changes.len() {
                self.tally.steps.met(Edge::OneTooFew);
            }
            both.restart();
        }
        Ok(())
    }

    /// A script of a salvage, some steps by chance on what it leaves, and another salvage among them. The list tells the changes of the first, and
    /// stays so, whatever the steps behind it do.
    fn salvaged_by_script(&mut self, both: &mut Both, after: &[u16], list: usize, number: u32, told: &[Change]) -> Agreed {
        let mut asked = self.script(after, &SCRIPTED, STEPS, 12).asked;
        let place = self.random.below(asked.len() as u32 + 1) as usize;
        asked.insert(place, Asked::Salvage);
        asked.insert(0, Asked::Salvage);
        let played = self.play(both, None, Script { room: asked.len() + 1, list, asked })?.played;
        let answer = Answer { number, value: told.len() as u32, ..Answer::default() };
        both.demand(
            played.replies[0] == answer,
            &format!("the first salvage of the run does not answer {answer}, as it must"),
            played.replies[0],
        )?;
        both.demand(played.list == written(list, told), "the list does not tell the changes that there must be", answer)
    }
}
