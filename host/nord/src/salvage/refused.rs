//! A salvage that is refused: what and why, with the numbers.

use super::{CanMend, Overdrawn};
use crate::answers::{item, look_at, Call, Refusal};
use crate::broken::Broken;
use proved::Reply;
use std::path::Path;

/// So many reasons are told; the rest is counted.
const REASONS: usize = 8;

/// The refusal of a salvage of this image, which it has left as it was.
pub fn refusal(image: &[u16], reply: Reply, path: &Path) -> Refusal {
    match reply.number {
        3 => unsound(image, reply, path),
        13 => overdrawn(image, reply, path),
        _ => {
            let changes = proved::most_changes(image.len() / proved::PAGE);
            Refusal::of(reply, Call::Salvage, format!("a list of {changes} changes"))
        }
    }
}

/// Number 3 as the check tells it, and that salvage leaves such things alone.
fn unsound(image: &[u16], reply: Reply, path: &Path) -> Refusal {
    let refusal = Broken::of(image, reply).tell(Refusal::of(reply, Call::Salvage, ""), path);
    CanMend::refused(image, reply).tell(refusal, path)
}

/// Number 13 with every reason.
fn overdrawn(image: &[u16], reply: Reply, path: &Path) -> Refusal {
    let found = Overdrawn::of(image);
    let mut reasons = found.reasons().into_iter();
    let Some(first) = reasons.next() else {
        return Refusal::of(reply, Call::Salvage, "no user and no sum is found");
    };
    let refusal = Refusal::of(reply, Call::Salvage, first);
    let mut more: Vec<String> = reasons.by_ref().take(REASONS).map(|reason| item("and", &reason)).collect();
    more.extend(match reasons.count() {
        0 => None,
        left => Some(item("and", &format!("{left} more (--json has all)"))),
    });
    more.push(item(
        "hint",
        "salvage changes no given count: the one that does not fit is to be looked at first",
    ));
    more.push(look_at(path, found.place()));
    refusal.over(more).detailed(found.told())
}
