//! Volumes that are nearly full, where a search for free pages is long. They have few large files, and so a short check to hold it against:
//! what lies in a row belongs to a contiguous file, what is scattered to large indexed ones.
//!
//! User 0 has all the files. His first one has 512 pages, so that a grow takes three: data page, index block and subindex block. User 64
//! has no file: his first one needs an index block and an object page, so that a create looks for two single pages before it looks for a
//! run. The users between are gone. As far as pages are free, two are unreserved, three are left to user 0, and the others to user 64.

use crate::disk::Disk;
use crate::volumes::{file_name, longest, question, user_name, Volume, KIND};

/// Who has the files, and who has none.
pub const OWNER: u32 = 0;
pub const MAKER: u32 = 64;

/// The owner's file that grows, with its pages.
pub const GROWING: u32 = 0;
const GROWING_PAGES: u32 = 512;

/// So many pages in a row are a file of their own.
const LONG_ROW: u32 = 512;

/// The longest run that is asked for.
pub const LONGEST_RUN: u32 = 1_000;

/// What the maker's first file takes from the unreserved pages, and what a grow takes.
const SYSTEM: u32 = 2;
const GROW: u32 = 3;

/// The free pages of `last`: enough for each of the calls, and no more.
const LAST: u32 = LONGEST_RUN + SYSTEM + GROW;

/// The volumes of so many pages.
pub fn all(pages: u32) -> [Volume; 3] {
    [last(pages), sixteenth(pages), none(pages)]
}

/// The only free pages are the last ones.
fn last(pages: u32) -> Volume {
    volume("last", "the last ones only", pages, |_| (pages - LAST..pages).collect())
}

/// One page of each sixteen is free.
fn sixteenth(pages: u32) -> Volume {
    volume("sixteenth", "one in each sixteen", pages, |disk| scattered(disk, pages))
}

/// No page is free.
fn none(pages: u32) -> Volume {
    volume("none", "none", pages, |_| Vec::new())
}

/// A free page of each sixteen, now here and now there in them.
fn scattered(disk: &Disk, pages: u32) -> Vec<u32> {
    let place = |word: u32| word.wrapping_mul(2_654_435_769) >> 28;
    let page = |word: u32| (0..16).map(|n| 16 * word + (place(word) + n) % 16).find(|&page| disk.is_free(page));
    (0..pages / 16).filter_map(page).collect()
}

/// A volume that is full but for the pages that are left.
fn volume(name: &str, which: &str, pages: u32, left: impl Fn(&Disk) -> Vec<u32>) -> Volume {
    let users: Vec<Vec<u8>> = (0..=MAKER).map(user_name).collect();
    let mut disk = Disk::new(pages, name.to_uppercase().as_bytes(), &users);
    let left = left(&disk);
    let free = left.len() as u32;
    disk.leave(left);
    let files = fill(&mut disk);
    let mut words = disk.finish(OWNER, GROW.min(free));
    give(&mut words, free.saturating_sub(SYSTEM + GROW));
    (OWNER + 1..MAKER).for_each(|user| assert_eq!(second::delete_user(&mut words, user as usize).number, 0));
    let question = question(&words, OWNER, GROWING, GROWING_PAGES - 1, GROWING);
    Volume {
        name: name.into(),
        about: format!("{pages} pages; a file of 512 pages and few large ones; free pages: {which}"),
        words,
        question,
        files: vec![files, Vec::new()],
    }
}

/// Fills a disk with the owner's files: the one that grows, then contiguous ones of the pages in a row, if these are many or the last, and
/// indexed ones else. Gives their pages.
fn fill(disk: &mut Disk) -> Vec<u32> {
    let mut sizes = vec![GROWING_PAGES];
    disk.indexed(OWNER, GROWING, &file_name(GROWING), KIND, GROWING_PAGES);
    while disk.free() > 0 {
        let file = sizes.len() as u32;
        let name = file_name(file);
        if disk.row() >= LONG_ROW || disk.free() == 1 {
            sizes.push(disk.contiguous(OWNER, file, &name, KIND));
        } else {
            let size = longest(disk.free());
            disk.indexed(OWNER, file, &name, KIND, size);
            sizes.push(size);
        }
    }
    sizes
}

/// Gives the maker so many pages, if any.
fn give(words: &mut [u16], pages: u32) {
    if pages > 0 {
        assert_eq!(second::give(words, MAKER as usize, pages as usize).number, 0);
    }
}

#[cfg(test)]
mod tests {
    use super::*;
    use crate::plain;

    /// The free pages of a volume, bit after bit.
    fn free(volume: &Volume) -> Vec<usize> {
        let pages = volume.pages() as usize;
        let next = |from: usize| Some(plain::lowest_free(&volume.words, from)).filter(|&page| page < pages);
        std::iter::successors(next(0), |&page| next(page + 1)).collect()
    }

    /// Both programs hold each volume to be sound, and its free pages are those that it is named for.
    #[test]
    fn volumes_are_sound_and_free_where_they_should_be() {
        for pages in [2_500, 2_512, 16_384] {
            let volumes = all(pages);
            let [last, sixteenth, none] = volumes.each_ref().map(free);
            for (volume, free) in volumes.iter().zip([&last, &sixteenth, &none]) {
                assert_eq!(
                    volume.held() as usize + free.len(),
                    pages as usize,
                    "{}: held and free",
                    volume.name
                );
            }
            assert_eq!(last, (pages as usize - 1_005..pages as usize).collect::<Vec<usize>>());
            assert_eq!(none, []);
            let words: Vec<usize> = sixteenth.iter().map(|page| page / 16).collect();
            assert_eq!(
                words,
                (0..pages as usize / 16).collect::<Vec<usize>>(),
                "one free page in each word"
            );
            assert!(sixteenth.windows(2).all(|two| two[0] + 1 < two[1]), "no two in a row");
        }
    }

    /// The calls meet the search: only a full volume refuses them before it.
    #[test]
    fn allowances_are_as_the_free_pages_allow() {
        let [last, sixteenth, none] = all(16_384);
        let grow = |volume: &Volume| second::grow(&mut volume.words.clone(), OWNER as usize, GROWING as usize).number;
        assert_eq!([&last, &sixteenth, &none].map(grow), [0, 0, 9]);
        let create = |volume: &Volume, n: usize| {
            let reply = second::create_contiguous(&mut volume.words.clone(), MAKER as usize, b"NEW", KIND, 0, n);
            reply.number
        };
        assert_eq!([1, 10, 1_000].map(|n| create(&last, n)), [0, 0, 0]);
        assert_eq!([1, 10, 1_000].map(|n| create(&sixteenth, n)), [0, 11, 11]);
        assert_eq!([1, 10, 1_000].map(|n| create(&none, n)), [9, 9, 9]);
    }

    /// A grow takes three pages, and a create two system pages beside its run.
    #[test]
    fn calls_take_as_many_single_pages_as_they_can() {
        let volume = last(2_500);
        let mut words = volume.words.clone();
        let held = volume.held();
        assert_eq!(second::grow(&mut words, OWNER as usize, GROWING as usize).number, 0);
        assert_eq!(second::check(&words).value, held + 3);
        assert_eq!(
            second::create_contiguous(&mut words, MAKER as usize, b"NEW", KIND, 0, 1_000).number,
            0
        );
        assert_eq!(second::check(&words).value, 2_500, "no page more than the calls want");
    }
}
