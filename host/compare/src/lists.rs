//! Lists of changes that are lent to a salvage. They are filled before, so that a record which is not written is known.

use crate::words::PAGE;
use proved::Change;

/// The n-th record as it is lent: no salvage writes such a place, and no two are alike.
fn untouched(n: usize) -> Change {
    let n = n as u32;
    Change { page: 0xAAAA_0000 + n, word: 0x5555_5555, old: 0x3333_3333, new: 0xCCCC_0000 + n }
}

/// A list with room for so many changes.
pub fn lent(room: usize) -> Vec<Change> {
    (0..room).map(untouched).collect()
}

/// A list with room for so many, once these were written to it; one that has no room for them is as it was lent.
pub fn written(room: usize, changes: &[Change]) -> Vec<Change> {
    let mut list = lent(room);
    if let Some(first) = list.get_mut(..changes.len()) {
        first.copy_from_slice(changes);
    }
    list
}

/// The part of a list up to its last record that is not as it was lent.
pub fn touched(list: &[Change]) -> &[Change] {
    let last = (0..list.len()).rev().find(|&n| list[n] != untouched(n));
    &list[..last.map_or(0, |last| last + 1)]
}

/// The words in which an image differs from what it was before, as a salvage tells them.
pub fn differing(before: &[u16], after: &[u16]) -> Vec<Change> {
    let pages = before.chunks(PAGE).zip(after.chunks(PAGE)).enumerate().filter(|(_, (old, new))| old != new);
    pages.flat_map(|(page, (old, new))| differing_in(page as u32, old, new)).collect()
}

/// The same of one page.
fn differing_in<'a>(page: u32, before: &'a [u16], after: &'a [u16]) -> impl Iterator<Item = Change> + 'a {
    let words = (0..).zip(before.iter().zip(after)).filter(|(_, (old, new))| old != new);
    words.map(move |(word, (&old, &new))| Change { page, word, old: old.into(), new: new.into() })
}

/// A list as the second program has it, and back.
pub fn to_second(list: &[Change]) -> Vec<second::Change> {
    list.iter().map(|&Change { page, word, old, new }| second::Change { page, word, old, new }).collect()
}

pub fn from_second(list: &[second::Change]) -> Vec<Change> {
    list.iter().map(|&second::Change { page, word, old, new }| Change { page, word, old, new }).collect()
}

/// A change as a line of a case has it: page, word, old and new value.
pub fn in_words(change: &Change) -> String {
    format!("{} {} {} {}", change.page, change.word, change.old, change.new)
}

#[cfg(test)]
mod tests {
    use super::*;

    /// Changes are written from the first record on, and only where all have room.
    #[test]
    fn records_past_the_changes_stay() {
        let changes = differing(&[1, 2, 3], &[1, 5, 4]);
        assert_eq!(changes.iter().map(in_words).collect::<Vec<String>>(), ["0 1 2 5", "0 2 3 4"]);
        assert_eq!(written(3, &changes), [changes[0], changes[1], untouched(2)]);
        assert_eq!((written(1, &changes), lent(0)), (lent(1), Vec::new()));
        assert_eq!((touched(&written(5, &changes)), touched(&lent(5))), (&changes[..], &[][..]));
        assert_eq!(from_second(&to_second(&changes)), changes);
    }
}
