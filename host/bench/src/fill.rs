//! Volumes as they were before T-03, their short names and types filled up with zeros: builds of the library from before it and from after
//! it check them alike.

use crate::volumes::Volume;
use second::entry::{is_used, stored_name, stored_type, ENTRIES_TO_A_PAGE, ENTRY_WORDS, NAME, TYPE};
use second::image::{page_start, pair, OBJECT_POINTER, USER_POINTER, VOLUME_NAME};
use second::name::{Stored, NAME_WORDS, TYPE_WORDS};
use second::pointer::{named, Pointer};

/// The pages that hold the entries of the file whose pointer this is.
fn entry_pages(words: &[u16], pointer: usize) -> Vec<u32> {
    let below = |block: u32| named(words, block).map(|(_, page)| page).collect::<Vec<u32>>();
    match Pointer::read(pair(words, pointer)) {
        Pointer::Indexed(top) => below(top),
        Pointer::Subindexed(top) => below(top).into_iter().flat_map(below).collect(),
        _ => Vec::new(),
    }
}

/// A name with zeros up to the end of its field.
fn fill(field: &mut [u16], name: Stored) {
    field.fill(0);
    for (place, byte) in name.bytes().enumerate() {
        field[place / 2] |= u16::from(byte) << if place % 2 == 0 { 8 } else { 0 };
    }
}

fn fill_entry(entry: &mut [u16]) {
    let (name, kind) = (stored_name(entry), stored_type(entry));
    fill(&mut entry[NAME..][..NAME_WORDS], name);
    fill(&mut entry[TYPE..][..TYPE_WORDS], kind);
}

/// The volume with zeros behind each of its names and types.
pub fn with_zeros(mut volume: Volume) -> Volume {
    let words = &mut volume.words;
    let name = Stored::read(&words[VOLUME_NAME..][..NAME_WORDS]);
    fill(&mut words[VOLUME_NAME..][..NAME_WORDS], name);
    for pointer in [USER_POINTER, OBJECT_POINTER] {
        for page in entry_pages(words, pointer) {
            for number in 0..ENTRIES_TO_A_PAGE as usize {
                let entry = &mut words[page_start(page) + ENTRY_WORDS * number..][..ENTRY_WORDS];
                if is_used(entry) {
                    fill_entry(entry);
                }
            }
        }
    }
    volume
}

#[cfg(test)]
mod tests {
    use super::*;
    use crate::volumes::many;

    /// Apostrophes of names go, and nothing else: the listing and the check stay.
    #[test]
    fn only_the_fill_changes() {
        let listed = |volume: &Volume| proved::list(&volume.words);
        let (new, old) = (many(2_000), with_zeros(many(2_000)));
        let gone = new.words.iter().zip(&old.words).filter(|(new, old)| new != old);
        let (before, after): (Vec<u16>, Vec<u16>) = gone.unzip();
        assert!(before.len() > 100, "{} words differ", before.len());
        assert!(before.iter().zip(&after).all(|(new, old)| new - old == 0x2700 || new - old == 0x27));
        assert_eq!(listed(&new), listed(&old));
        assert_eq!(new.held(), old.held());
    }
}
