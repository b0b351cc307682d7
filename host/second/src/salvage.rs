//! Salvage of an image whose pointers are good and whose bits or counts are
//! not (document 02, T-05): the bits below P and the used counts are written
//! anew from what the pointers hold, and unreserved from the sum.

use crate::bits::{bits_below, words_in_use};
use crate::check::{demand_pointers, Held};
use crate::entry::{user, ENTRIES};
use crate::image::{page_count, page_start, put_pair, PAGE_WORDS, UNRESERVED};
use crate::reply::{demand, Outcome, Reply, LIST_SHORT, OVERDRAWN};
use crate::volume::{bit_run, user_entry};

/// One changed word: word 0..1,023 of a page, its old and its new value.
#[derive(Clone, Copy, Debug, Default, PartialEq, Eq)]
pub struct Change {
    pub page: u32,
    pub word: u32,
    pub old: u32,
    pub new: u32,
}

/// A word of the image, by its place from the image's start, and the value that
/// it is to have.
type Wanted = (usize, u16);

/// Salvages the image: each changed word is told in the list, in ascending
/// place; with 0, the value is their number.
pub fn salvage(image: &mut [u16], list: &mut [Change]) -> Reply {
    try_salvage(image, list).into()
}

/// All that changes is known, and fits the list, before the first word of either
/// is written.
fn try_salvage(image: &mut [u16], list: &mut [Change]) -> Outcome {
    let pages = page_count(image)?;
    let held = demand_pointers(image, pages)?;
    let within = held.users.iter().flatten().all(|user| user.held <= u64::from(user.given));
    demand(within, OVERDRAWN)?;
    let unreserved = left(&held, pages).ok_or(OVERDRAWN)?;
    let mut wanted = count(UNRESERVED, unreserved).to_vec();
    wanted.extend(bits(image, pages, &held));
    wanted.extend(used_counts(image, &held));
    wanted.retain(|&(at, value)| image[at] != value);
    wanted.sort_unstable();
    demand(wanted.len() <= list.len(), LIST_SHORT)?;
    for (&(at, value), told) in wanted.iter().zip(list) {
        *told = change(at, image[at], value);
        image[at] = value;
    }
    Ok(wanted.len() as u32)
}

/// What is left of P without the pages given and the system's, if it is not
/// below zero.
fn left(held: &Held, pages: u32) -> Option<u32> {
    let given: u64 = held.users.iter().flatten().map(|user| u64::from(user.given)).sum();
    let left = u64::from(pages).checked_sub(given + held.system)?;
    Some(left as u32)
}

/// The two words of a count that starts there.
fn count(at: usize, value: u32) -> [Wanted; 2] {
    let mut words = [0; 2];
    put_pair(&mut words, 0, value);
    [(at, words[0]), (at + 1, words[1])]
}

/// The words of the bit file, of all its pages: a bit for each held page; those from
/// P on stay.
fn bits<'a>(image: &'a [u16], pages: u32, held: &'a Held) -> impl Iterator<Item = Wanted> + 'a {
    let start = page_start(bit_run(image).start);
    (0..words_in_use(pages)).map(move |word| {
        let beyond = image[start + word] & !bits_below(pages, word);
        (start + word, held.bits[word] | beyond)
    })
}

/// The used counts of the used users.
fn used_counts<'a>(image: &'a [u16], held: &'a Held) -> impl Iterator<Item = Wanted> + 'a {
    let users = (0..ENTRIES).zip(&held.users).filter_map(|(index, of)| Some((index, of.as_ref()?)));
    let entries = users.filter_map(|(index, of)| Some((user_entry(image, index)?, of.held)));
    entries.flat_map(|(entry, used)| count(entry + user::USED, used as u32))
}

/// What is told of a word that changes.
fn change(at: usize, old: u16, new: u16) -> Change {
    Change {
        page: (at / PAGE_WORDS) as u32,
        word: (at % PAGE_WORDS) as u32,
        old: u32::from(old),
        new: u32::from(new),
    }
}
