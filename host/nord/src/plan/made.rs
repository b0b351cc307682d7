//! The library makes a list of calls.

use super::{refused, Plan};
use crate::answers::Refusal;
use crate::failure::Failure;
use proved::Reply;
use std::ops::Range;

/// What calls have answered, and the image after the whole list.
pub struct Made<'a> {
    pub replies: &'a [Reply],
    pub image: &'a [u16],
}

impl Made<'_> {
    /// The value of the last call.
    pub fn last(&self) -> u32 {
        self.replies.last().map_or(0, |reply| reply.value)
    }
}

/// Where a list came to its end before its last call.
pub enum Stopped {
    /// The library has refused the call of this number; the image is as the calls before have left it.
    Refused(usize, Refusal),
    /// The library's answer is not what was forecast.
    Unforeseen(Failure),
}

/// Makes these calls with one check for all of them, and gives their replies.
pub fn make(plan: &Plan, calls: Range<usize>, image: &mut [u16]) -> Result<Vec<Reply>, Stopped> {
    let mut replies = vec![Reply::default(); calls.len()];
    let count = proved::run(image, &plan.steps[calls.clone()], &plan.text, &plan.data, &mut [], &mut replies);
    replies.truncate(count);
    match replies.last() {
        Some(last) if last.number != 0 => {
            let refused = calls.start + count - 1;
            Err(Stopped::Refused(refused, refused::refusal(plan, refused, *last, image)))
        }
        _ if count < calls.len() => Err(unforeseen("a call was not made")),
        _ => foreseen(plan, calls, replies),
    }
}

/// The replies, if each value is the one that was forecast where one was.
fn foreseen(plan: &Plan, calls: Range<usize>, replies: Vec<Reply>) -> Result<Vec<Reply>, Stopped> {
    let within = |step: usize| step.checked_sub(calls.start).and_then(|at| replies.get(at));
    for group in &plan.groups {
        let answered = within(group.steps.start).map(|reply| reply.value);
        if let (Some(wanted), Some(value)) = (group.value, answered) {
            if wanted != value {
                return Err(unforeseen(&format!("{}: index {value} where {wanted} was forecast", group.subject)));
            }
        }
    }
    Ok(replies)
}

/// The end of a list for that reason.
pub fn unforeseen(what: &str) -> Stopped {
    Stopped::Unforeseen(Failure::Host(format!(
        "the library has answered otherwise than forecast, and nothing is changed: {what}"
    )))
}

impl From<Stopped> for Failure {
    fn from(stopped: Stopped) -> Failure {
        match stopped {
            Stopped::Refused(_, refusal) => refusal.into(),
            Stopped::Unforeseen(failure) => failure,
        }
    }
}
