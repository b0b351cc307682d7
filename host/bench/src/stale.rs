//! Volumes as a power cut leaves them: the pointers are good, bits and counts are not.

use crate::volumes::Volume;
use proved::{Change, Reply, PAGE};
use second::bits::{bits_below, words_in_use};
use second::entry::{user, EntryPlace};
use second::image::{page_start, pair, BIT_POINTER, UNRESERVED, USER_POINTER};
use second::pointer::{slot, Pointer};

/// The bits that are turned over in each word of the bit file: those of two pages in sixteen.
const TURNED: u16 = 0x0101;

/// A volume with stale bits and counts, and how many words a salvage of it has to change.
pub struct Stale {
    pub words: Vec<u16>,
    pub changed: usize,
}

/// Turns over two bits of every word of the bit file, and the last bit of every user's used count and of unreserved. A salvage has to give the
/// volume's own words again.
pub fn stale(volume: &Volume) -> Stale {
    let mut words = volume.words.clone();
    let pages = volume.pages();
    let bits = page_start(pair(&words, BIT_POINTER));
    for word in 0..words_in_use(pages) {
        words[bits + word] ^= TURNED & bits_below(pages, word);
    }
    let users = volume.files.len() as u32;
    for at in (0..users).map(|number| used_count(&volume.words, number)) {
        words[at + 1] ^= 1;
    }
    words[UNRESERVED + 1] ^= 1;
    let changed = words_in_use(pages) + users as usize + 1;
    let (mut mended, mut list) = (words.clone(), list(&words));
    assert_eq!(salvage(&mut mended, &mut list).value as usize, changed, "{}", volume.name);
    assert!(mended == volume.words, "{}: a salvage gives the sound volume", volume.name);
    Stale { words, changed }
}

/// Where a user's used count stands.
fn used_count(words: &[u16], number: u32) -> usize {
    let Pointer::Indexed(index) = Pointer::read(pair(words, USER_POINTER)) else {
        unreachable!("a measured volume has users")
    };
    let place = EntryPlace::of(number);
    place.start_in(slot(words, index, place.position)) + user::USED
}

/// As long a list as a salvage of these words can need.
pub fn list(words: &[u16]) -> Vec<Change> {
    vec![Change::default(); proved::most_changes(words.len() / PAGE)]
}

/// A salvage that has to be done.
pub fn salvage(words: &mut [u16], list: &mut [Change]) -> Reply {
    let reply = proved::salvage(words, list);
    assert_eq!(reply.number, 0, "a measured salvage is done");
    reply
}

#[cfg(test)]
mod tests {
    use super::*;
    use crate::volumes::{many, singles, yard};

    #[test]
    fn a_stale_volume_breaks_rule_4_or_9() {
        for volume in [yard(), many(1_000), singles(1_000)] {
            let reply = proved::check(&stale(&volume).words);
            assert!(reply.number == 3 && matches!(reply.rule, 4 | 9), "{}: {reply:?}", volume.name);
        }
    }
}
