//! The refusal of a call of a list, with its subject and, where there is not enough, with the numbers.

use super::needed::{needed, Needed};
use super::{Each, Group, Plan};
use crate::answers::{Call, Refusal};
use crate::args::Ending;
use crate::convert::InTheWay;
use crate::names;
use proved::{Reply, Step, MOST_PAGES};

/// The refusal of the call of this number, on the image that the calls before have left.
pub fn refusal(plan: &Plan, number: usize, reply: Reply, image: &[u16]) -> Refusal {
    let Some(group) = plan.groups.iter().find(|group| group.steps.contains(&number)) else {
        return Refusal::of(reply, Call::Check, "");
    };
    let (nth, step) = (number - group.steps.start, &plan.steps[number]);
    let refusal = match (reply.number, group.call) {
        (12, Call::ToApostrophe | Call::ToZeros) => in_the_way(plan, group, reply, image),
        (4, Call::FindUser | Call::FindFile) => names::hint(plain(group, nth, reply), &name(plan, step)),
        _ => plain(group, nth, reply),
    };
    let refusal = match needed(image, group.call, step, reply.number) {
        Some(needed) => with_numbers(refusal, needed),
        None => refusal,
    };
    match &group.each {
        Each::PageOf(of) => refusal.with(format!("page {} of {of}", nth + 1)),
        Each::Of(pages) if reply.number == 2 && !is_count(step.count) => refusal.with(format!("{pages} asked for")),
        _ => refusal,
    }
}

/// Whether a file may have so many pages; else the count is what is wrong.
fn is_count(pages: u32) -> bool {
    (1..=MOST_PAGES as u32).contains(&pages)
}

/// The reason and the subject.
fn plain(group: &Group, nth: usize, reply: Reply) -> Refusal {
    match group.each {
        Each::Position => Refusal::of(reply, group.call, format!("position {nth} of {}", group.subject)),
        _ => Refusal::of(reply, group.call, &group.subject),
    }
}

/// The name that a step has.
fn name(plan: &Plan, step: &Step) -> String {
    let (first, bytes) = (step.name_at as usize, step.name_bytes as usize);
    String::from_utf8_lossy(&plan.text[first..first + bytes]).into_owned()
}

/// Number 12 with the name that is in the way of a conversion.
fn in_the_way(plan: &Plan, group: &Group, reply: Reply, image: &[u16]) -> Refusal {
    let to = match group.call {
        Call::ToZeros => Ending::Zeros,
        _ => Ending::Apostrophe,
    };
    match InTheWay::of(image, to) {
        Some(found) => found.refusal(reply, group.call, &plan.path),
        None => plain(group, 0, reply),
    }
}

/// Numbers 9 and 10 say how many pages are needed and how many are there.
fn with_numbers(refusal: Refusal, needed: Needed) -> Refusal {
    refusal.with(needed.words()).detailed(needed)
}
