//! Rounds of the searches for free pages: volumes whose free pages are aimed at each edge, calls and runs on them, and what these met.

use crate::both::Both;
use crate::calls::Call;
use crate::edges::By;
use crate::patterns::{Aim, Ask, Border, Gap, Pattern, Shape, SHAPES};
use crate::rounds::{Agreed, Round};
use crate::scattered::{patterned, Beyond};
use crate::script::Script;
use crate::searched::Before;

/// Pages that a volume with chosen free pages holds at least.
const HELD: usize = 12;

/// All aims, each once or so that all places of an entry have their turn.
fn aims() -> Vec<Aim> {
    let gaps = [Gap::Words(0, 0), Gap::NextBit0, Gap::Words(1, 1), Gap::Words(2, 5), Gap::Words(9, 9)];
    let broken = [(1, 1, 0), (2, 2, 0), (2, 2, 1), (2, 1, 0)];
    let bits = (0..16).flat_map(|bit| [1, 2].map(|takes| Aim::Bit(bit, takes)));
    let runs = SHAPES.into_iter().flat_map(|shape| [0, 1, 2].map(|place| Aim::Run(shape, place)));
    let mut aims: Vec<Aim> = bits.chain(runs).chain(gaps.map(Aim::Two)).collect();
    aims.extend(broken.map(|(place, own, longer)| Aim::Broken(place, own, longer)));
    for place in 0..3 {
        aims.extend([Aim::NoRun(place), Aim::Tempting(place, true), Aim::Tempting(place, false), Aim::Beside(place)]);
    }
    for beyond in [None, Some(Beyond::Zeros), Some(Beyond::Ones), Some(Beyond::Chance)] {
        aims.extend([1, 2].map(|takes| Aim::Last(takes, beyond)));
    }
    aims.extend([Aim::Full; 6].into_iter().chain([Aim::Chance; 6]));
    aims
}

/// What is aimed at on a volume of over 100 words of bits, and on the largest.
const LARGE: [Aim; 6] = [Aim::Bit(0, 1), Aim::Bit(15, 2), Aim::Bit(7, 3), Aim::Last(3, None), Aim::LowRun(0), Aim::LowRun(2)];
const LARGEST: [Aim; 3] = [Aim::Last(2, None), Aim::LowRun(1), Aim::Run(Shape::Top, 1)];

/// What is aimed at where two pages of the bit file meet.
const BORDERS: [Aim; 8] = [
    Aim::PastBitPage(2),
    Aim::TwoBitPages(true),
    Aim::TwoBitPages(false),
    Aim::AtBorder(Border::Over, 1),
    Aim::AtBorder(Border::UpTo, 0),
    Aim::AtBorder(Border::From, 2),
    Aim::AtBorder(Border::Below, 0),
    Aim::AtBorder(Border::TooShort, 1),
];

impl Round<'_> {
    /// A volume for each aim, of about so many pages.
    pub fn searches(&mut self, pages: u32) -> Agreed {
        for aim in aims() {
            let rest = self.rest(aim);
            self.search(pages / 16 * 16 + rest, aim)?;
        }
        Ok(())
    }

    /// The remainder of P by 16: any, but by turns none and some where the aim is at the volume's end.
    fn rest(&mut self, aim: Aim) -> u32 {
        match aim {
            Aim::Last(_, None) | Aim::Run(Shape::Top, 0) => 0,
            Aim::Last(_, Some(_)) | Aim::Run(Shape::Top, 1) => self.random.between(1, 10),
            _ => self.random.below(16),
        }
    }

    /// The same with few aims, on volumes of exactly so many pages.
    pub fn large_searches(&mut self, pages: u32) -> Agreed {
        let aims: &[Aim] = if pages < 16_384 { &LARGE } else { &LARGEST };
        aims.iter().try_for_each(|&aim| self.search(pages, aim))
    }

    /// The same where the second bit page begins, on volumes with not many pages more.
    pub fn border_searches(&mut self, pages: u32) -> Agreed {
        BORDERS.iter().try_for_each(|&aim| self.search(pages, aim))
    }

    /// One volume: the call that is aimed with, and some after it, by single calls; then the same by a run.
    fn search(&mut self, pages: u32, aim: Aim) -> Agreed {
        let (wish, ask) = Pattern::new(&mut self.random, pages).aimed(aim);
        if wish.free.len() + HELD > pages as usize {
            return Ok(());
        }
        let mut both = Both::new(patterned(&mut self.random, &wish));
        let more = if matches!(aim, Aim::Chance) { 5 } else { 1 };
        let calls: Vec<Call> = self.asks(ask, more).into_iter().zip(0..).map(|(ask, n)| ask.call(n)).collect();
        for call in &calls {
            self.searched_by_call(&mut both, call)?;
        }
        both.restart();
        self.searched_by_run(&mut both, calls)
    }

    /// A call that searches, and so many by chance after it.
    fn asks(&mut self, first: Ask, more: u32) -> Vec<Ask> {
        let mut asks = vec![first];
        for _ in 0..more {
            let place = self.random.below(3);
            let count = self.random.between(1, 20);
            asks.push(*self.random.pick(&[Ask::Grow(1), Ask::Grow(2), Ask::Indexed(place), Ask::Contiguous { place, count }, first]));
        }
        asks
    }

    fn searched_by_call(&mut self, both: &mut Both, call: &Call) -> Agreed {
        let before = Before::read(both.image(), call);
        let answered = both.call(call.clone(), self.tally)?;
        assert_ne!(answered.call.number, 3, "the maker of volumes with chosen free pages made an unsound one");
        self.tally.edges.searched(By::Call, &before.after(both.image(), call, &answered.call));
        Ok(())
    }

    /// One run of all calls; what each step met is told by single calls on a copy, which a run is compared with.
    fn searched_by_run(&mut self, both: &mut Both, calls: Vec<Call>) -> Agreed {
        let mut copy = both.image().to_vec();
        let script = Script::of(calls.len(), &calls);
        let ran = both.run(None, script, self.tally)?;
        for (call, reply) in calls.iter().zip(&ran.played.replies).take(ran.played.made) {
            let before = Before::read(&copy, call);
            call.on_proved(&mut copy);
            self.tally.edges.searched(By::Step, &before.after(&copy, call, reply));
        }
        Ok(())
    }
}

#[cfg(test)]
mod tests {
    use super::*;
    use crate::random::Random;
    use crate::tally::Tally;

    /// The volumes that are made are sound.
    #[test]
    fn volumes_are_sound() {
        let mut random = Random::of_round(8, 0);
        for aim in aims() {
            let pages = random.between(160, 240);
            let (wish, _) = Pattern::new(&mut random, pages).aimed(aim);
            assert_eq!(second::check(&patterned(&mut random, &wish)).number, 0);
        }
    }

    /// Two rounds meet every edge that is none of large volumes.
    #[test]
    fn edges_are_met() {
        let mut tally = Tally::default();
        for n in 0..2 {
            let mut round = Round { random: Random::of_round(9, n), tally: &mut tally };
            assert!(round.searches(200).is_ok());
        }
        let never: Vec<String> = tally.edges.all().into_iter().filter(|(_, met)| met.contains(&0)).map(|(words, _)| words).collect();
        let large = ["page after 100 full words", "three pages of a step", "run below 100 full words"];
        assert_eq!(never[..3], large);
        assert!(never[3..].iter().all(|words| words.contains("bit page")), "{never:?}");
    }

    /// One round meets each edge of two bit pages, by calls and by steps.
    #[test]
    fn borders_are_met() {
        let mut tally = Tally::default();
        let mut round = Round { random: Random::of_round(10, 0), tally: &mut tally };
        assert!(round.border_searches(16_500).is_ok());
        let borders: Vec<(String, [u64; 2])> = tally.edges.all().into_iter().filter(|(words, _)| words.contains("bit page")).collect();
        assert_eq!(borders.len(), BORDERS.len());
        assert!(borders.iter().all(|(_, met)| !met.contains(&0)), "{borders:?}");
    }
}
