//! Rounds of the conversions: for each of their edges words on a volume that is in one fill, calls and runs on them, and what these met.

use crate::both::Both;
use crate::calls::{Answer, Call};
use crate::converts::{all_filled, series, Aimed, Aims, Edge, Seen, Way};
use crate::edges::By;
use crate::rounds::{Agreed, Round};
use crate::scene::Scene;
use crate::script::Script;
use crate::volumes::with_entries;

impl Round<'_> {
    /// Each edge of each direction, by single calls and by runs, on a volume with entries on several pages, or on one that no calls give.
    pub fn converts(&mut self, pages: u32, scattered: bool) -> Agreed {
        let base = if scattered { self.scattered_volume(pages) } else { with_entries(&mut self.random, pages) };
        for way in Way::ALL {
            let image = all_filled(&base, way.from());
            let scene = Scene::read(&image);
            let mut both = Both::new(image.clone());
            for edge in Edge::all(way) {
                let aims = Aims { random: &mut self.random, image: &image, scene: &scene, way }.aimed(edge);
                let Some(Aimed { words, lent, calls }) = aims else { continue };
                both.put(&words);
                self.converted_by_calls(&mut both, lent, &calls)?;
                both.restart();
                both.put(&words);
                self.converted_by_run(&mut both, lent, calls)?;
                both.restart();
            }
        }
        Ok(())
    }

    fn converted_by_calls(&mut self, both: &mut Both, lent: Option<usize>, calls: &[Call]) -> Agreed {
        let start = both.image().to_vec();
        let mut answers = Vec::new();
        for call in calls {
            answers.push(both.lend(lent, call.clone(), self.tally)?.call);
        }
        self.converts_met(By::Call, &start[..lent.unwrap_or(start.len())], calls, &answers);
        Ok(())
    }

    fn converted_by_run(&mut self, both: &mut Both, lent: Option<usize>, calls: Vec<Call>) -> Agreed {
        let start = both.image().to_vec();
        let script = Script::of(calls.len() + 1, &calls);
        let played = both.run(lent, script, self.tally)?.played;
        self.converts_met(By::Step, &start[..lent.unwrap_or(start.len())], &calls, &played.replies[..played.made]);
        Ok(())
    }

    /// What the conversions among some calls met. The images between them are had by single calls on a copy, which all are compared with.
    fn converts_met(&mut self, by: By, start: &[u16], calls: &[Call], answers: &[Answer]) {
        let mut images = vec![start.to_vec()];
        for call in &calls[..answers.len()] {
            let mut image = images[images.len() - 1].clone();
            call.on_proved(&mut image);
            images.push(image);
        }
        let mut met = series(calls, answers, &images);
        for (n, (call, answer)) in calls.iter().zip(answers).enumerate() {
            if let Some(way) = Way::of(call) {
                let seen = Seen { way, before: &images[n], answer, after: &images[n + 1] };
                met.extend(seen.edges().into_iter().map(|edge| (way, edge)));
            }
        }
        for way in Way::ALL {
            let of_way = met.iter().filter(|(of, _)| *of == way).map(|&(_, edge)| edge).collect();
            self.tally.converts.met(by, way, of_way);
        }
    }
}

#[cfg(test)]
mod tests {
    use super::*;
    use crate::random::Random;
    use crate::tally::Tally;

    /// A few rounds on volumes with entries on several pages meet every edge.
    #[test]
    fn edges_are_met() {
        let mut tally = Tally::default();
        for n in 0..3 {
            let mut round = Round { random: Random::of_round(11, n), tally: &mut tally };
            assert!(round.converts(28, false).is_ok());
        }
        let never: Vec<String> = tally.converts.demands().into_iter().filter(|(_, met, _)| *met == 0).map(|(words, ..)| words).collect();
        assert_eq!(never, Vec::<String>::new());
    }
}
