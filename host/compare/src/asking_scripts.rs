//! Scripts that ask: who holds the pages of a volume, and where the pages of its files lie.

use crate::both::Both;
use crate::calls::Call;
use crate::rounds::{Agreed, Round};
use crate::scene::{File, Scene};
use crate::script::Script;
use crate::script_rounds::whole;
use crate::volumes::{with_long_file, with_users};
use crate::words::PAGE;
use std::collections::BTreeSet;

/// So many pages at either end of a volume are asked for; of a small one these are all.
const ENDS: u32 = 80;

/// Positions of a file are asked for so many times beside the first and the last.
const MORE: u32 = 3;

/// Pages of volumes that have room for a file with a subindex block, and for 65 users.
const LONG: u32 = 600;
const MANY: u32 = 40;

impl Round<'_> {
    /// A large volume with a long file, or a small one with so many users that the object file is subindexed, or one that no calls give.
    pub fn asking_scripts(&mut self, pages: u32) -> Agreed {
        let image = match pages {
            LONG.. => with_long_file(&mut self.random, pages, 513),
            MANY.. if self.random.one_in(2) => with_users(&mut self.random, pages, 65),
            _ => self.scattered_volume(pages),
        };
        let scene = Scene::read(&image);
        let mut both = Both::new(image);
        self.who_holds_each(&mut both, &scene)?;
        self.read_some(&mut both, &scene)?;
        self.wrong_lengths(&mut both)
    }

    /// Who holds each of the pages that are worth it, and then a page that is not there.
    fn who_holds_each(&mut self, both: &mut Both, scene: &Scene) -> Agreed {
        let wrong = *self.random.pick(&[scene.pages, scene.pages + 1, 65_536.max(scene.pages), u32::MAX]);
        let pages = pages_to_ask(scene).into_iter().chain([wrong]);
        self.play(both, None, whole(pages.map(|page| Call::WhoHolds { page: page as usize })))?;
        Ok(())
    }

    /// The first, the last and some other positions of the files, and then one past the last of a file, or a user or a file that cannot be.
    fn read_some(&mut self, both: &mut Both, scene: &Scene) -> Agreed {
        let read = |file: &File, position: u32| {
            let [user, file, position] = [file.user, file.file, position].map(|number| number as usize);
            Call::ReadPage { user, file, position }
        };
        let there: Vec<Call> = scene
            .files
            .iter()
            .filter(|file| file.pages > 0)
            .flat_map(|file| {
                let more = (0..MORE).map(|_| self.random.below(file.pages));
                let positions: Vec<u32> = more.chain([0, file.pages - 1]).collect();
                positions.into_iter().map(move |position| read(file, position))
            })
            .collect();
        let past = scene.files.iter().take(MORE as usize).map(|file| read(file, file.pages));
        let wrong = [(256, 0), (0, 256)].map(|(user, file)| Call::ReadPage { user, file, position: 0 });
        for last in past.chain(wrong) {
            self.play(both, None, whole(there.iter().cloned().chain([last, Call::Check])))?;
        }
        Ok(())
    }

    /// Each of the steps that ask, and a salvage with a list, on a part of the image that is none.
    fn wrong_lengths(&mut self, both: &mut Both) -> Agreed {
        let asking = [Call::WhoHolds { page: 0 }, Call::ReadPage { user: 0, file: 0, position: 0 }, Call::Salvage { room: 0 }];
        for call in asking {
            let lent = *self.random.pick(&[0, 7 * PAGE, both.image().len() - 1]);
            let script = Script { list: 2, ..Script::of(2, &[call]) };
            self.play(both, Some(lent), script)?;
        }
        Ok(())
    }
}

/// The pages at both ends, and all that the master block, an index block or an entry names.
fn pages_to_ask(scene: &Scene) -> BTreeSet<u32> {
    let ends = (0..scene.pages).filter(|&page| page < ENDS || page + ENDS >= scene.pages);
    let named = [&scene.user_pages, &scene.object_indexes, &scene.object_pages].into_iter().flatten().map(|&(_, page)| page);
    let blocks = [scene.user_index, scene.object_block].into_iter().chain(scene.bit_run());
    ends.chain(named).chain(blocks).chain(scene.files.iter().map(File::page)).collect()
}
