//! Rounds of damaged images: each kind of place, rules broken by chance, and two faults at once.

use crate::both::Both;
use crate::calls::{Answer, Call};
use crate::choose::{Choice, ANY};
use crate::damage::Damage;
use crate::rounds::{Agreed, Round};
use crate::scene::Scene;
use crate::spots::SPOTS;
use crate::tally::Met;
use crate::twice::{long_files, pairs, twice};
use proved::Place;

/// What damage was aimed at.
#[derive(Clone, Copy)]
enum Aim {
    Nothing,
    Rule(u32),
    /// A kind of place, by its number in the table, and where it is.
    Spot(usize, Place),
    /// Two places of one rule.
    Two(u32, [Place; 2]),
}

impl Round<'_> {
    pub fn damaged(&mut self, pages: u32, times: u32) -> Agreed {
        let base = self.base(pages);
        let scene = Scene::read(&base);
        let mut both = Both::new(base.clone());
        let first = both.call(Call::Check, self.tally)?;
        assert_eq!(first.call.number, 0, "the volume to be damaged was unsound before");
        for _ in 0..times {
            self.each_spot(&mut both, &base, &scene)?;
            for rule in (1..=10).flat_map(|rule| [rule; 3]) {
                if let Some(words) = Damage::new(&mut self.random, &base, &scene).aimed(rule) {
                    both.put(&words);
                    self.on_damaged(&mut both, &scene, Aim::Rule(rule))?;
                }
            }
            for _ in 0..12 {
                let words = Damage::new(&mut self.random, &base, &scene).by_chance();
                both.put(&words);
                self.on_damaged(&mut both, &scene, Aim::Nothing)?;
            }
            self.two_rules(&mut both, &base, &scene)?;
            (0..30).try_for_each(|_| self.one_rule_twice(&mut both, &base, &scene))?;
        }
        Ok(())
    }

    /// Each rule once, and some by chance, on a volume on which each call takes long.
    pub fn damaged_large(&mut self, pages: u32) -> Agreed {
        let base = self.base(pages);
        let scene = Scene::read(&base);
        let mut both = Both::new(base.clone());
        for rule in 1..=10 {
            if let Some(words) = Damage::new(&mut self.random, &base, &scene).aimed(rule) {
                both.put(&words);
                self.on_damaged(&mut both, &scene, Aim::Rule(rule))?;
            }
        }
        (0..8).try_for_each(|_| self.one_rule_twice(&mut both, &base, &scene))
    }

    /// Each kind of place that the volume has something for.
    fn each_spot(&mut self, both: &mut Both, base: &[u16], scene: &Scene) -> Agreed {
        for (n, spot) in SPOTS.iter().enumerate() {
            if let Some((words, place)) = spot.aimed(Damage::new(&mut self.random, base, scene)) {
                both.put(&words);
                self.on_damaged(both, scene, Aim::Spot(n, place))?;
            }
        }
        Ok(())
    }

    /// Two rules broken at once: the lower one is to be told.
    fn two_rules(&mut self, both: &mut Both, base: &[u16], scene: &Scene) -> Agreed {
        for _ in 0..6 {
            for _ in 0..2 {
                let rule = self.random.between(1, 10);
                let words = Damage::new(&mut self.random, base, scene).aimed(rule).unwrap_or_default();
                both.put(&words);
            }
            self.on_damaged(both, scene, Aim::Nothing)?;
        }
        Ok(())
    }

    /// One rule broken in two places: the first in its order is to be told.
    fn one_rule_twice(&mut self, both: &mut Both, base: &[u16], scene: &Scene) -> Agreed {
        let one = self.random.pick(&SPOTS);
        let of_rule: Vec<usize> = (0..SPOTS.len()).filter(|&n| SPOTS[n].rule == one.rule).collect();
        let two = &SPOTS[*self.random.pick(&of_rule)];
        let Some((words, place)) = one.aimed(Damage::new(&mut self.random, base, scene)) else { return Ok(()) };
        let Some((more, other)) = two.aimed(Damage::new(&mut self.random, base, scene)) else { return Ok(()) };
        both.put(&words);
        both.put(&more);
        self.on_damaged(both, scene, Aim::Two(one.rule, [place, other]))
    }

    /// Two holders of one page, of each pair of kinds.
    pub fn twice(&mut self, times: u32) -> Agreed {
        for pair in (0..times).flat_map(|_| pairs()) {
            let image = twice(&mut self.random, pair);
            let scene = Scene::read(&image);
            self.on_damaged(&mut Both::new(image), &scene, Aim::Rule(8))?;
        }
        Ok(())
    }

    /// Volumes that break rule 8 alone, and then others, with each kind of place.
    pub fn long_files(&mut self, times: u32) -> Agreed {
        for _ in 0..times {
            let base = long_files(&mut self.random);
            let scene = Scene::read(&base);
            let mut both = Both::new(base.clone());
            self.each_spot(&mut both, &base, &scene)?;
            (0..20).try_for_each(|_| self.one_rule_twice(&mut both, &base, &scene))?;
        }
        Ok(())
    }

    /// A call on a damaged image, which is then put right again; the check after the call tells what the damage was.
    fn on_damaged(&mut self, both: &mut Both, scene: &Scene, aim: Aim) -> Agreed {
        let mut choice = Choice { random: &mut self.random, image: both.image(), scene };
        let (call, lent) = (choice.call(&ANY), choice.lent(30));
        let is_format = matches!(call, Call::Format { .. });
        let answered = both.lend(lent, call, self.tally)?;
        let is_damaged = !is_format && answered.check.number == 3;
        if is_damaged {
            self.tally.damaged(&answered.check);
            self.hit(&answered.check, aim);
        }
        if is_damaged && self.random.one_in(4) {
            self.salvaged_as_checked(both, &answered.check)?;
        }
        both.restart();
        Ok(())
    }

    /// Whether what was told is what damage was aimed at.
    fn hit(&mut self, check: &Answer, aim: Aim) {
        match aim {
            Aim::Rule(rule) if check.rule == rule => self.tally.hit(rule),
            Aim::Spot(n, place) if (check.rule, check.place) == (SPOTS[n].rule, place) => self.tally.told(n),
            Aim::Two(rule, places) if check.rule == rule && places[0] != places[1] => {
                let Some(told) = places.iter().position(|&place| place == check.place) else { return };
                self.tally.met(Met::FirstOfTwo);
                if check.place.page > places[1 - told].page {
                    self.tally.met(Met::NotByPage);
                }
            }
            _ => {}
        }
    }
}
