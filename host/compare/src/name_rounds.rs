//! Rounds of names as they are stored: for each of their edges words behind or before the end of a name, calls and runs on them, and what
//! these met.

use crate::both::Both;
use crate::calls::Call;
use crate::edges::By;
use crate::names::{Aims, Edge, Seen};
use crate::rounds::{Agreed, Round};
use crate::scene::Scene;
use crate::script::Script;
use crate::volumes::with_names;

impl Round<'_> {
    /// Each edge, by single calls and by runs.
    pub fn names(&mut self, pages: u32) -> Agreed {
        let base = with_names(&mut self.random, pages);
        let scene = Scene::read(&base);
        let mut both = Both::new(base.clone());
        for edge in Edge::all() {
            let (words, calls) = Aims { random: &mut self.random, image: &base, scene: &scene }.aimed(edge);
            both.put(&words);
            for call in &calls {
                self.named_by_call(&mut both, call)?;
            }
            both.restart();
            both.put(&words);
            for call in calls {
                self.named_by_run(&mut both, call)?;
            }
            both.restart();
        }
        Ok(())
    }

    fn named_by_call(&mut self, both: &mut Both, call: &Call) -> Agreed {
        let before = both.image().to_vec();
        let answer = both.call(call.clone(), self.tally)?.call;
        self.tally.names.seen(By::Call, &Seen { before: &before, call, answer: &answer, after: both.image() });
        Ok(())
    }

    /// A run of a check and the call, so that a refusal of the call does not stop those after it. Where the check is refused, the run ends.
    fn named_by_run(&mut self, both: &mut Both, call: Call) -> Agreed {
        let before = both.image().to_vec();
        let calls = if matches!(call, Call::Format { .. }) { vec![call] } else { vec![Call::Check, call] };
        let script = Script::of(calls.len(), &calls);
        let ran = both.run(None, script, self.tally)?;
        for (call, answer) in calls.iter().zip(&ran.played.replies).take(ran.played.made) {
            self.tally.names.seen(By::Step, &Seen { before: &before, call, answer, after: both.image() });
        }
        Ok(())
    }
}

#[cfg(test)]
mod tests {
    use super::*;
    use crate::random::Random;

    /// The volume is sound, and its entries are those that the aims speak of.
    #[test]
    fn the_volume_is_as_the_aims_have_it() {
        let mut random = Random::of_round(4, 0);
        for pages in 20..40 {
            let image = with_names(&mut random, pages);
            assert_eq!(second::check(&image).number, 0);
            let scene = Scene::read(&image);
            let users: Vec<u32> = scene.users.iter().map(|user| user.index).collect();
            let files: Vec<(u32, u32)> = scene.files.iter().map(|file| (file.user, file.file)).collect();
            assert_eq!((users, files), (vec![0, 1, 2], vec![(0, 0), (0, 1), (0, 2)]));
            assert!(scene.files[0].is_indexed() && scene.files[1].pages == 0 && scene.files[2].is_contiguous());
        }
    }

    /// What is aimed at an edge meets it.
    #[test]
    fn edges_are_met() {
        let mut random = Random::of_round(10, 0);
        for edge in Edge::all() {
            let base = with_names(&mut random, 20);
            let scene = Scene::read(&base);
            let (words, calls) = Aims { random: &mut random, image: &base, scene: &scene }.aimed(edge);
            let mut image = base.clone();
            words.into_iter().for_each(|(at, word)| image[at] = word);
            let mut met = Vec::new();
            for call in &calls {
                let before = image.clone();
                let answer = call.on_second(&mut image);
                met.extend(Seen { before: &before, call, answer: &answer, after: &image }.edges());
            }
            assert!(met.contains(&edge), "{edge:?} is not met");
        }
    }
}
