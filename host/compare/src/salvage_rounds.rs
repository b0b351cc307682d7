//! Rounds of salvage: for each of its edges a damaged volume, a salvage of it by both programs, and what this met. What must come out is known
//! from the volume before the damage; where pointers are damaged, from the check of the image without its stale counts.

use crate::both::{Answered, Both};
use crate::calls::{Answer, Call};
use crate::cycle::Ground;
use crate::lists::{differing, lent as lent_list, written};
use crate::random::Random;
use crate::rounds::{Agreed, Round};
use crate::salvages::{Aimed, Aims, Edge, Room, Seen};
use crate::scene::Scene;
use crate::stale::{right, Right, Stale};
use crate::tally::Met;
use crate::volumes::{with_entries, with_long_file};
use crate::words::*;
use proved::{most_changes, Change};

/// Room for changes where it is not known how many there would be.
const SOME: usize = 6;

/// Edges that are aimed at on a volume on which each call takes long.
const LARGE: [Edge; 8] = {
    let any = Edge::Pages(16_384);
    [any, any, any, any, any, any, Edge::LastWord, Edge::AllThree]
};

/// What a salvage must answer, and the changes that it must tell.
struct Wanted {
    answer: Answer,
    changes: Vec<Change>,
}

impl Room {
    /// How many changes there is room for, where so many are to be told.
    fn of(self, changes: usize, pages: u32, random: &mut Random) -> usize {
        match self {
            Room::None => 0,
            Room::OneTooFew => changes.saturating_sub(1),
            Room::Enough => changes,
            Room::More if random.one_in(4) => most_changes(pages as usize).max(changes + 1),
            Room::More => changes + random.between(1, 9) as usize,
        }
    }
}

impl Round<'_> {
    /// Each edge so often, on a volume of this size and kind.
    pub fn salvages(&mut self, ground: Ground, pages: u32, times: u32) -> Agreed {
        let sound = match ground {
            Ground::Entries => with_entries(&mut self.random, pages),
            Ground::LongFile => with_long_file(&mut self.random, pages, 513),
            Ground::Scattered => self.scattered_volume(pages),
        };
        let edges: Vec<Edge> = (0..times).flat_map(|_| Edge::all()).collect();
        self.salvages_of(sound, &edges)
    }

    /// Some edges on a volume on which each call takes long.
    pub fn salvages_large(&mut self, pages: u32) -> Agreed {
        let sound = self.scattered_volume(pages);
        self.salvages_of(sound, &LARGE)
    }

    fn salvages_of(&mut self, sound: Vec<u16>, edges: &[Edge]) -> Agreed {
        let scene = Scene::read(&sound);
        let mut both = Both::new(sound.clone());
        for &edge in edges {
            let aimed = Aims { random: &mut self.random, sound: &sound, scene: &scene }.aimed(edge);
            let Some(aimed) = aimed else { continue };
            match edge {
                Edge::Unsound(..) | Edge::UnsoundNoRoom => self.broken(&mut both, &sound, &scene, &aimed)?,
                _ => self.stale(&mut both, &sound, &scene, &aimed)?,
            }
            both.restart();
        }
        Ok(())
    }

    /// So many times bits and counts by chance on one sound volume.
    pub fn stale_by_chance(&mut self, sound: &[u16], times: u64) -> Agreed {
        let scene = Scene::read(sound);
        let mut both = Both::new(sound.to_vec());
        for _ in 0..times {
            let mut stale = Stale::new(&mut self.random, sound, &scene);
            stale.by_chance();
            let image = stale.image;
            let room = *self.random.pick(&[Room::None, Room::OneTooFew, Room::Enough, Room::Enough, Room::More, Room::More]);
            self.stale(&mut both, sound, &scene, &Aimed { image, room, lent: None })?;
            both.restart();
        }
        Ok(())
    }

    /// A salvage of a volume with stale bits and counts.
    fn stale(&mut self, both: &mut Both, sound: &[u16], scene: &Scene, aimed: &Aimed) -> Agreed {
        let right = right(sound, scene, &aimed.image);
        let changes = match &right {
            Right::Words(words) => differing(&aimed.image, words),
            Right::Overdrawn { .. } => Vec::new(),
        };
        let room = aimed.room.of(changes.len(), scene.pages, &mut self.random);
        let number = match right {
            _ if aimed.lent.is_some() => 1,
            Right::Overdrawn { .. } => 13,
            Right::Words(_) if changes.len() > room => 14,
            Right::Words(_) => 0,
        };
        let changes = if number == 0 { changes } else { Vec::new() };
        let answer = Answer { number, value: changes.len() as u32, ..Answer::default() };
        self.salvage(both, sound, scene, aimed, room, Some(Wanted { answer, changes }))
    }

    /// A salvage of a volume whose pointers or names are damaged. Where the check of it, with the used counts as they were, tells one of the
    /// rules 1 to 8, but not that used is above given, so must the salvage.
    fn broken(&mut self, both: &mut Both, sound: &[u16], scene: &Scene, aimed: &Aimed) -> Agreed {
        let room = aimed.room.of(SOME, scene.pages, &mut self.random);
        let mut counted = aimed.image.clone();
        scene.users.iter().for_each(|user| counted[user.at + USED..][..2].copy_from_slice(&sound[user.at + USED..][..2]));
        let check = Call::Check.on_proved(&mut counted);
        let wanted = is_of_pointers(&check).then(|| Wanted { answer: check, changes: Vec::new() });
        self.salvage(both, sound, scene, aimed, room, wanted)
    }

    /// A salvage of a damaged image as it stands, after the check of it: where that tells one of the rules 1 to 8, but not that used is above
    /// given, so must the salvage, with the place and the holders. Where it tells rule 9 or 10, the salvage does not answer 3.
    pub fn salvaged_as_checked(&mut self, both: &mut Both, check: &Answer) -> Agreed {
        let before = both.image().to_vec();
        let room = self.random.below(8) as usize;
        let answered = both.call(Call::Salvage { room }, self.tally)?;
        told_all(both, &before, None, &answered)?;
        if is_of_pointers(check) {
            both.demand(answered.call == *check, &format!("the salvage does not answer {check}, as the check does"), answered.call)?;
            self.tally.met(Met::SalvageAsCheck);
        }
        if check.rule > 8 {
            both.demand(answered.call.number != 3, "the salvage is refused by a rule that it does not ask", answered.call)?;
            self.tally.met(Met::SalvageNotAsCheck);
        }
        Ok(())
    }

    /// One salvage by both: what must be so of every one, what is wanted of this one, and the edges that it met. Where it was done, another one
    /// without room tells of nothing.
    fn salvage(&mut self, both: &mut Both, sound: &[u16], scene: &Scene, aimed: &Aimed, room: usize, wanted: Option<Wanted>) -> Agreed {
        both.put_image(&aimed.image);
        let answered = both.lend(aimed.lent, Call::Salvage { room }, self.tally)?;
        told_all(both, &aimed.image, aimed.lent, &answered)?;
        let is_known = wanted.is_some();
        if let Some(Wanted { answer, changes }) = wanted {
            both.demand(answered.call == answer, &format!("the salvage does not answer {answer}, as it must"), answered.call)?;
            let right = answered.list == written(room, &changes);
            both.demand(right, "the salvage does not tell the changes that there must be", answered.call)?;
        }
        let seen = Seen { sound, scene, before: &aimed.image, answer: &answered.call, list: &answered.list };
        let mut edges = if is_known { seen.edges() } else { Vec::new() };
        if answered.call.number == 0 {
            let again = both.call(Call::Salvage { room: 0 }, self.tally)?.call;
            both.demand(again == Answer::default(), "a second salvage is not just done", again)?;
            edges.push(Edge::Again);
        }
        self.tally.salvages.met(edges);
        Ok(())
    }
}

/// Whether a check tells a rule that salvage asks for: one of 1 to 8, but not that used is above given.
fn is_of_pointers(check: &Answer) -> bool {
    let above = check.rule == 4 && check.place.word as usize % 32 == USED;
    (1..=8).contains(&check.rule) && !above
}

/// What must be so of every salvage, on whatever image: where it is done, the list tells the words that differ, as many as it says, and no
/// others, its other records stay, and the image is sound; where it is refused, image and list are as they were.
pub fn told_all(both: &mut Both, before: &[u16], lent: Option<usize>, answered: &Answered) -> Agreed {
    let changes = differing(before, both.image());
    let (answer, room) = (answered.call, answered.list.len());
    if answer.number != 0 {
        let stayed = changes.is_empty() && answered.list == lent_list(room);
        return both.demand(stayed, "a refused salvage changed the image or its list", answer);
    }
    let told = answer.value as usize == changes.len() && room >= changes.len() && answered.list == written(room, &changes);
    both.demand(told, "the list does not tell just the words that changed", answer)?;
    let sound = lent.is_some() || answered.check.number == 0;
    both.demand(sound, "the image is unsound after its salvage", answered.check)
}

#[cfg(test)]
mod tests {
    use super::*;
    use crate::tally::Tally;

    /// What a salvage answered that changed words 3 and 5 of an image of zeros, and its list.
    fn changed(answer: Answer, list: Vec<Change>, check: u32) -> bool {
        let before = vec![0; 8 * PAGE];
        let mut after = before.clone();
        (after[3], after[5]) = (1, 2);
        let check = Answer { number: check, ..Answer::default() };
        told_all(&mut Both::new(after), &before, None, &Answered { call: answer, list, check }).is_ok()
    }

    /// Words that changed and are not told, told and not changed, in another order or behind the last, are seen; so is an unsound image.
    #[test]
    fn what_is_not_told_is_seen() {
        let done = |value: u32| Answer { value, ..Answer::default() };
        let [three, five] = [(3, 1), (5, 2)].map(|(word, new)| Change { page: 0, word, old: 0, new });
        assert!(changed(done(2), written(4, &[three, five]), 0));
        assert!(changed(done(2), vec![three, five], 0));
        assert!(!changed(done(2), written(4, &[three, five]), 3));
        assert!(!changed(done(1), written(4, &[three]), 0));
        assert!(!changed(done(1), written(4, &[three, five]), 0));
        assert!(!changed(done(2), written(4, &[five, three]), 0));
        assert!(!changed(done(3), written(4, &[three, five, five]), 0));
        assert!(!changed(done(2), written(4, &[three, five, five]), 0));
    }

    /// A refusal that changed the image or its list is seen.
    #[test]
    fn a_refusal_that_writes_is_seen() {
        let short = Answer { number: 14, ..Answer::default() };
        assert!(!changed(short, lent_list(1), 0));
        let image = vec![0; 8 * PAGE];
        let told = |list: Vec<Change>| {
            let answered = Answered { call: short, list, check: Answer::default() };
            told_all(&mut Both::new(image.clone()), &image, None, &answered).is_ok()
        };
        assert!(told(lent_list(2)));
        assert!(!told(written(2, &[Change::default()])));
    }

    /// A few rounds meet every edge, but for those of sizes that they do not have.
    #[test]
    fn edges_are_met() {
        let mut tally = Tally::default();
        let of_size =
            [(Ground::Entries, 29), (Ground::Scattered, 8), (Ground::Scattered, 32), (Ground::Scattered, 90), (Ground::LongFile, 600)];
        for (n, (ground, pages)) in (0..10).zip(of_size.into_iter().cycle()) {
            let mut round = Round { random: Random::of_round(22, n), tally: &mut tally };
            assert!(round.salvages(ground, pages, 2).is_ok());
        }
        let never: Vec<Edge> = Edge::all().into_iter().filter(|&edge| tally.salvages.times(edge) == 0).collect();
        assert_eq!(never, [Edge::Pages(16_384)]);
    }
}
