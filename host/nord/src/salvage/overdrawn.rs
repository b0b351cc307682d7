//! Why a salvage is refused with 13: who holds more than he was given, or by how much unreserved would be below zero.

use crate::volume::{Disk, Held, Kind};
use proved::Place;
use serde::Serialize;

/// A user who holds more pages than he was given.
struct Over {
    user: u32,
    holds: u32,
    given: u32,
}

/// What an image whose pointers are good holds and was given.
pub struct Overdrawn<'a> {
    disk: Disk<'a>,
    over: Vec<Over>,
    /// The pages given to all users, and those of the system.
    given: u64,
    system: u32,
}

impl Overdrawn<'_> {
    /// Of an image that a salvage was refused on with 13.
    pub fn of(image: &[u16]) -> Overdrawn<'_> {
        let (disk, held) = (Disk::new(image), Held::of(image));
        let over = disk.users().filter_map(|(user, entry)| {
            let (holds, given) = (held.count(|holder| holder.kind.of_a_file() && holder.user == user), entry.given());
            (holds > given).then_some(Over { user, holds, given })
        });
        Overdrawn {
            over: over.collect(),
            given: disk.users().map(|(_, entry)| u64::from(entry.given())).sum(),
            system: held.count(|holder| holder.kind != Kind::Free && !holder.kind.of_a_file()),
            disk,
        }
    }

    /// By how much unreserved would be below zero.
    fn below_zero(&self) -> u64 {
        (self.given + u64::from(self.system)).saturating_sub(self.disk.pages().into())
    }

    /// Each reason by itself, users first.
    pub fn reasons(&self) -> Vec<String> {
        let user = |over: &Over| {
            let name = self.disk.user_words(over.user);
            format!("{name} holds {} pages and was given {}", over.holds, over.given)
        };
        let mut reasons: Vec<String> = self.over.iter().map(user).collect();
        if self.below_zero() > 0 {
            let Overdrawn { disk, given, system, .. } = self;
            let (pages, below) = (disk.pages(), self.below_zero());
            reasons.push(format!(
                "unreserved would be {below} below zero: {pages} pages less {given} given less {system} of the system"
            ));
        }
        reasons
    }

    /// Where the first count stands that does not fit: what the first such user was given, or unreserved.
    pub fn place(&self) -> Place {
        match self.over.first() {
            Some(over) => self.disk.given_place(over.user),
            None => self.disk.unreserved_place(),
        }
    }

    /// The same for programs.
    pub fn told(&self) -> Told {
        let user = |over: &Over| User {
            user: over.user,
            name: self.disk.user(over.user).map(|entry| entry.name()),
            holds: over.holds,
            given: over.given,
        };
        Told {
            users: self.over.iter().map(user).collect(),
            pages: self.disk.pages(),
            given: self.given,
            system: self.system,
            below_zero: self.below_zero(),
        }
    }
}

/// Who holds more than he was given, and the sum of the whole volume.
#[derive(Serialize)]
pub struct Told {
    users: Vec<User>,
    pages: u32,
    given: u64,
    system: u32,
    below_zero: u64,
}

#[derive(Serialize)]
struct User {
    user: u32,
    name: Option<String>,
    holds: u32,
    given: u32,
}
