//! Where an image is broken (document 02, T-01): the first place that breaks
//! the lowest broken rule. It is looked for only once that rule has failed, so
//! all lower rules hold and what they speak of can be read.

mod blocks;
mod counts;
mod entries;
mod held;
mod holders;
mod master;
mod shapes;

use crate::reply::{Break, Holder, Place};
use crate::rules::Asked;

/// What is broken, this rule being the lowest broken one of those asked.
pub(crate) fn broken(image: &[u16], pages: u32, rule: u32, asked: Asked) -> Break {
    let found = match rule {
        1 => master::rule_1(image, pages),
        2 => master::rule_2(image, pages),
        3 => blocks::rule_3(image, pages),
        4 => entries::rule_4(image, asked),
        5 => blocks::rule_5(image, pages),
        6 => entries::rule_6(image),
        7 => shapes::rule_7(image, pages),
        8 => held::rule_8(image, pages),
        9 => held::rule_9(image, pages),
        _ => counts::rule_10(image),
    };
    let place = found.expect("a rule that does not hold has a place that breaks it");
    let holders = match rule {
        8 => holders::first_two(image, pages, place.page),
        _ => [Holder::default(); 2],
    };
    Break { rule, place, holders }
}

/// A word of page 0.
fn in_master(word: usize) -> Place {
    Place {
        page: 0,
        word: word as u32,
    }
}

/// The place, where something is wrong there.
fn wrong(is_wrong: bool, place: Place) -> Option<Place> {
    is_wrong.then_some(place)
}

/// Whether a pointer may name this page: it is in 1..P-1.
fn in_range(page: u32, pages: u32) -> bool {
    (1..pages).contains(&page)
}
