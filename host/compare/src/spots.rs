//! The kinds of place that can break a rule, each with damage that makes one: words to change on a sound volume, and the place that is then
//! to be told. Document 02's T-01 has their order; `twice` has rule 8's.

mod entries;
mod shapes;

use crate::damage::{Damage, Words};
use crate::scene::File;
use crate::words::*;
use proved::Place;

/// A kind of place: its rule, its words, and its damage.
pub struct Spot {
    pub rule: u32,
    pub words: &'static str,
    make: fn(&mut Damage) -> Option<Place>,
}

impl Spot {
    /// The words to change, and the place; none where the volume has nothing of the kind.
    pub fn aimed(&self, mut damage: Damage) -> Option<(Words, Place)> {
        let place = (self.make)(&mut damage)?;
        Some((damage.words, place))
    }
}

const fn spot(rule: u32, words: &'static str, make: fn(&mut Damage) -> Option<Place>) -> Spot {
    Spot { rule, words, make }
}

pub const SPOTS: [Spot; 48] = [
    spot(1, "volume name", |d| d.wrong_name(VOLUME_NAME, 8).and(place(VOLUME_NAME))),
    spot(1, "bit pointer", |d| d.bit_pointer()),
    spot(2, "pointers that disagree", |d| d.disagreeing()),
    spot(2, "object pointer", |d| d.object_pointer()),
    spot(2, "user pointer", |d| d.user_pointer()),
    spot(3, "slot of the user index below 8", |d| d.slot_below(d.scene.user_index, 8)),
    spot(3, "slot of the user index from 8 on", |d| d.slot_from(d.scene.user_index, 8)),
    spot(4, "illegal name of a user", |d| d.user_name()),
    spot(4, "equal name of a later user", |d| d.equal_user()),
    spot(4, "used above given", |d| d.used_above_given()),
    spot(4, "own index", |d| d.own_index()),
    spot(5, "user above 63", |d| d.user_above_63()),
    spot(5, "slot of the object subindex below 4", |d| d.scene.subindexed.then(|| d.slot_below(d.scene.object_block, 4))?),
    spot(5, "slot of the object subindex from 4 on", |d| d.scene.subindexed.then(|| d.slot_from(d.scene.object_block, 4))?),
    spot(5, "slot of object index block 0", |d| d.object_slot(|n| n == 0)),
    spot(5, "slot of a later object index block", |d| d.object_slot(|n| n > 0)),
    spot(6, "owner not used", |d| d.no_owner()),
    spot(6, "illegal name of a file", |d| d.file_word(NAME, |d, at| d.wrong_name(at, 8))),
    spot(6, "equal name and type of a later file", |d| d.equal_file()),
    spot(6, "type", |d| d.file_word(TYPE, |d, at| d.wrong_name(at, 2))),
    spot(6, "user of a file", |d| d.file_word(OWNER, |d, at| d.another(at))),
    spot(6, "own number of a file", |d| d.file_word(OWN_NUMBER, |d, at| d.another(at))),
    spot(7, "bytes", |d| d.bytes()),
    spot(7, "pointer with both flags", |d| d.pointer(|_| true, |_, file| S | I | file.page())),
    spot(7, "no pointer", |d| d.pointer(|file| file.pages > 0, |_, _| 0)),
    spot(7, "contiguous of no pages", |d| d.count(File::is_contiguous, |_, _| 0)),
    spot(7, "contiguous from a page outside", |d| d.pointer(|file| file.pages > 0, |d, _| d.outside())),
    spot(7, "contiguous past the end", |d| d.pointer(|file| file.pages > 1, |d, file| d.past_the_end(file))),
    spot(7, "contiguous longer than its run", |d| d.count(File::is_contiguous, |d, file| d.too_long(file))),
    spot(7, "indexed of no pages", |d| d.count(File::is_indexed, |_, _| 0)),
    spot(7, "indexed above 512", |d| d.count(File::is_indexed, |d, _| *d.random.pick(&[513, 1_024, 262_144, 262_145]))),
    spot(7, "indexed to a page outside", |d| d.pointer(File::is_indexed, |d, _| I | d.outside_or_0())),
    spot(7, "subindexed below 513", |d| d.pointer(|file| file.pages < 513, |d, file| S | d.some_page(file))),
    spot(7, "subindexed cut to 512", |d| d.count(File::is_subindexed, |d, _| *d.random.pick(&[0, 1, 512]))),
    spot(7, "subindexed above 262,144", |d| d.count(File::is_subindexed, |d, _| *d.random.pick(&[262_145, 262_656, 2_097_151]))),
    spot(7, "subindexed to a page outside", |d| d.pointer(File::is_subindexed, |d, _| S | d.outside_or_0())),
    spot(7, "slot of a subindex block needed", |d| d.subindex_slot(true)),
    spot(7, "slot of a subindex block not needed", |d| d.subindex_slot(false)),
    spot(7, "slot of an indexed file's block needed", |d| d.index_slot(File::is_indexed, |_, _| 0, true)),
    spot(7, "slot of an indexed file's block not needed", |d| d.index_slot(File::is_indexed, |_, _| 0, false)),
    spot(7, "slot of a subindexed file's block 0 needed", |d| d.index_slot(File::is_subindexed, |_, _| 0, true)),
    spot(7, "slot of a subindexed file's later block needed", |d| d.index_slot(File::is_subindexed, later_block, true)),
    spot(7, "slot of a subindexed file's last block not needed", |d| {
        d.index_slot(File::is_subindexed, |_, file| (file.pages - 1) / 512, false)
    }),
    spot(9, "bit set of a free page", |d| d.bit(false)),
    spot(9, "bit not set of a held page", |d| d.bit(true)),
    spot(10, "used count of the first user", |d| d.used_count(|n| n == 0)),
    spot(10, "used count of a later user", |d| d.used_count(|n| n > 0)),
    spot(10, "sum alone", |d| d.sum()),
];

/// The page and the word of a place in an image.
fn place(at: usize) -> Option<Place> {
    Some(Place { page: (at / PAGE) as u32, word: (at % PAGE) as u32 })
}

/// A block after the first.
fn later_block(d: &mut Damage, file: &File) -> u32 {
    d.random.between(1, (file.pages - 1) / 512)
}

#[cfg(test)]
mod tests {
    use super::*;
    use crate::random::Random;
    use crate::scattered::scattered;
    use crate::scene::Scene;
    use crate::twice::long_files;
    use crate::volumes::with_users;

    /// Each kind is met somewhere, and the second program tells the place that it aims at.
    #[test]
    fn each_kind_is_told() {
        let mut random = Random::of_round(5, 0);
        let mut told = [0; SPOTS.len()];
        for n in 0..60 {
            let base = match n % 3 {
                0 => with_users(&mut random, 40, 70),
                1 => long_files(&mut random),
                _ => scattered(&mut random, 150, 30, 30),
            };
            let scene = Scene::read(&base);
            for (kind, spot) in SPOTS.iter().enumerate() {
                let Some((words, place)) = spot.aimed(Damage::new(&mut random, &base, &scene)) else { continue };
                let mut image = base.clone();
                words.into_iter().for_each(|(at, value)| image[at] = value);
                let reply = second::check(&image);
                told[kind] += u32::from((reply.rule, reply.place.page, reply.place.word) == (spot.rule, place.page, place.word));
            }
        }
        let never: Vec<&str> = (0..SPOTS.len()).filter(|&n| told[n] == 0).map(|n| SPOTS[n].words).collect();
        assert!(never.is_empty(), "never told: {never:?}");
    }
}
