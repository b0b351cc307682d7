//! Rounds on a volume whose pages below 65,536 are all held by one file (document 02, T-06): every other page, and each that a call takes,
//! has a number whose high word counts.

use crate::both::Both;
use crate::calls::{Call, Data};
use crate::damage::{Damage, Words};
use crate::packs::HIGH;
use crate::rounds::{Agreed, Round};
use crate::scattered::{high, INDEXED, LATER, LOW_RUN, SHORT_RUN};
use crate::scene::Scene;
use crate::spots::SPOTS;
use crate::words::*;

/// A page of every kind of holder from the user index on, with its kind.
fn page_of_each_kind(image: &[u16], scene: &Scene) -> Vec<(u32, u32)> {
    let slot = |block: u32| pair(image, slot_at(block, 0));
    let subindexed = scene.files.iter().find(|file| file.is_subindexed()).map_or(0, |file| file.page());
    let pages = [
        scene.user_index,
        scene.user_pages[0].1,
        scene.object_block,
        scene.object_indexes[0].1,
        scene.object_pages[0].1,
        subindexed,
        slot(subindexed),
        slot(slot(subindexed)),
    ];
    (3..).zip(pages).collect()
}

impl Round<'_> {
    /// Who holds a page of each kind, damage to each, and calls.
    pub fn high_pages(&mut self, pages: u32) -> Agreed {
        let image = high(&mut self.random, pages, HIGH);
        let scene = Scene::read(&image);
        let mut both = Both::new(image);
        for (kind, page) in page_of_each_kind(both.image(), &scene) {
            let holder = self.asked(&mut both, Call::WhoHolds { page: page as usize })?.call;
            both.demand(holder.holder.kind == kind, &format!("the page's holder is not of kind {kind}"), holder)?;
        }
        self.broken_above(&mut both)?;
        self.calls_above(&mut both)
    }

    /// Each call that gives or takes a page.
    fn calls_above(&mut self, both: &mut Both) -> Agreed {
        let (user, file, position) = (0, INDEXED, 0);
        let data = Data { first: self.random.word(), length: PAGE };
        let new = |name: &[u8]| (name.to_vec(), b"NEW".to_vec());
        let ((name, kind), (other, same)) = (new(b"RUN"), new(b"READS"));
        let calls = [
            Call::Address { user, file, position },
            Call::ReadPage { user, file, position },
            Call::WritePage { user, file: SHORT_RUN, position, data },
            Call::Grow { user, file },
            Call::Shrink { user, file },
            Call::Give { user, count: 1 },
            Call::CreateContiguous { user, name, kind, created: 1, count: 33 },
            Call::CreateIndexed { user: LATER as usize, name: other, kind: same, created: 1 },
            Call::DeleteFile { user, file },
            Call::DeleteFile { user, file: SHORT_RUN },
            Call::DeleteFile { user, file: LOW_RUN },
            Call::Take { user, count: HIGH as usize - 1 },
        ];
        for call in calls {
            let given = self.asked(both, call)?.call;
            both.demand(given.number == 0, "the call is not done", given)?;
        }
        Ok(())
    }

    /// A place for each of the rules 3 to 8, on pages with a high word.
    fn broken_above(&mut self, both: &mut Both) -> Agreed {
        let scene = Scene::read(both.image());
        for rule in 3..=8 {
            let spots: Vec<usize> = (0..SPOTS.len()).filter(|&n| SPOTS[n].rule == rule).collect();
            let words = match spots.is_empty() {
                true => self.twice_above(both.image(), &scene),
                false => self.above(both.image(), &scene, &spots),
            };
            both.put(&words);
            self.asked(both, Call::Check)?;
            both.restart();
        }
        Ok(())
    }

    /// Damage of one of these kinds, whose place is not in the master block: it is found within a few.
    fn above(&mut self, base: &[u16], scene: &Scene, spots: &[usize]) -> Words {
        for _ in 0..50 {
            let spot = &SPOTS[*self.random.pick(spots)];
            if let Some((words, place)) = spot.aimed(Damage::new(&mut self.random, base, scene)) {
                if place.page >= HIGH {
                    return words;
                }
            }
        }
        Vec::new()
    }

    /// The index block of the indexed file is its first data page, too.
    fn twice_above(&mut self, base: &[u16], scene: &Scene) -> Words {
        let block = scene.file(0, INDEXED).map_or(0, |file| file.page());
        let mut damage = Damage::new(&mut self.random, base, scene);
        damage.two(slot_at(block, 0), block);
        damage.words
    }
}
