//! Rules 9 and 10: the bits, and the counts. Rule 8 holds there, so a page has one holder at most.

use super::asked::{Asked, Expected};
use crate::volume::{Disk, Held, Holder, Kind, ENTRIES_TO_A_PAGE, ENTRY_WORDS, UNRESERVED, USER_PAGES};
use proved::Place;

/// Rule 9: the lowest page of the word whose bit is wrong, and the word with all its bits right.
pub fn bits(disk: &Disk, held: &Held, place: Place) -> Option<Asked> {
    let word = *disk.words(place.page, place.word, 1).first()?;
    let position = place.page.checked_sub(disk.bit_file().start)?;
    let pages = disk.told_by(position, place.word);
    let is_held = |page: u32| held.first(page).kind != Kind::Free;
    let right = pages.clone().fold(word, |right, page| match is_held(page) {
        true => right | 1 << (page % 16),
        false => right & !(1 << (page % 16)),
    });
    let page = pages.clone().find(|page| (word ^ right) >> (page % 16) & 1 == 1)?;
    let why = match is_held(page) {
        true => format!("bit {} set, as page {page} is {}", page % 16, disk.holder_phrase(&held.first(page))),
        false => format!("bit {} clear, as nobody holds page {page}", page % 16),
    };
    let others = match (word ^ right).count_ones() - 1 {
        0 => String::new(),
        1 => "; 1 more bit of this word is wrong".to_string(),
        more => format!("; {more} more bits of this word are wrong"),
    };
    let expected = Expected::value(format!("{right}: {why}{others}"), right.into());
    Some(expected.by(Holder::system(Kind::BitFile, position)))
}

/// Rule 10.
pub fn counts(disk: &Disk, held: &Held, place: Place) -> Option<Asked> {
    if place.page == 0 {
        return (place.word == UNRESERVED).then(|| unreserved(disk, held)).flatten();
    }
    let position = (0..USER_PAGES).find(|n| disk.user_page(*n) == place.page)?;
    let user = ENTRIES_TO_A_PAGE * position + place.word / ENTRY_WORDS;
    let pages = held.count(|holder| holder.kind.of_a_file() && holder.user == user);
    let expected = Expected::value(format!("{pages}, the data, index and subindex pages of his files"), pages);
    Some(expected.by(Holder::system(Kind::UserPage, position)))
}

/// All pages less those given and those of the system.
fn unreserved(disk: &Disk, held: &Held) -> Option<Asked> {
    let given: u64 = disk.users().map(|(_, entry)| u64::from(entry.given())).sum();
    let system = held.count(|holder| holder.kind != Kind::Free && !holder.kind.of_a_file());
    let pages = disk.pages();
    let sum = format!("{pages} pages less {given} given less {system} of the system");
    let expected = match u64::from(pages).checked_sub(given + u64::from(system)) {
        Some(right) => Expected::value(format!("{right}, {sum}"), right as u32),
        None => Expected::words(format!("{sum}, which no number is: more is given than there is")),
    };
    Some(expected.by(Holder::system(Kind::Master, 0)))
}
