//! What a conversion that was done has changed.

use crate::answers::Answer;
use crate::args::Ending;
use crate::volume::{Disk, Whose};
use serde::Serialize;

/// How many names and types were changed, by whose they are.
#[derive(Clone, Copy, Debug, PartialEq, Eq, Serialize)]
pub struct Changed {
    volume: usize,
    users: usize,
    files: usize,
    types: usize,
}

/// To which fill so many were changed.
#[derive(Serialize)]
struct Converted {
    to: &'static str,
    changed: usize,
    #[serde(flatten)]
    by: Changed,
}

impl Changed {
    /// In an image as a conversion has left it: every short name and type, which is as short as it was.
    pub fn of(image: &[u16]) -> Changed {
        let shorts = Disk::new(image).shorts();
        let count = |such: fn(Whose) -> bool| shorts.iter().filter(|short| such(short.whose)).count();
        Changed {
            volume: count(|whose| matches!(whose, Whose::Volume)),
            users: count(|whose| matches!(whose, Whose::User(_))),
            files: count(|whose| matches!(whose, Whose::File(..))),
            types: count(|whose| matches!(whose, Whose::Type(..))),
        }
    }

    fn all(&self) -> usize {
        self.volume + self.users + self.files + self.types
    }

    pub fn answer(&self, to: Ending) -> Answer {
        let converted = Converted {
            to: to.word(),
            changed: self.all(),
            by: *self,
        };
        Answer::new(self.words(to), converted)
    }

    /// "3 short names and types now end in an apostrophe: the volume's name, 2 users' names".
    fn words(&self, to: Ending) -> String {
        let end = match to {
            Ending::Apostrophe => "in an apostrophe",
            Ending::Zeros => "in zeros alone",
        };
        match self.all() {
            0 => "nothing to change: no name or type is short".to_string(),
            1 => format!("1 short name or type now ends {end}: {}", self.parts()),
            all => format!("{all} short names and types now end {end}: {}", self.parts()),
        }
    }

    /// Whose they are, without those of whom there is none.
    fn parts(&self) -> String {
        let some = |count: usize, one: &str, more: &str| match count {
            0 => None,
            1 => Some(one.to_string()),
            _ => Some(format!("{count} {more}")),
        };
        let parts = [
            some(self.volume, "the volume's name", ""),
            some(self.users, "1 user's name", "users' names"),
            some(self.files, "1 file's name", "files' names"),
            some(self.types, "1 type", "types"),
        ];
        parts.into_iter().flatten().collect::<Vec<_>>().join(", ")
    }
}

#[cfg(test)]
mod tests {
    use super::{Changed, Ending};

    fn says(volume: usize, users: usize, files: usize, types: usize, to: Ending) -> String {
        let changed = Changed {
            volume,
            users,
            files,
            types,
        };
        changed.words(to)
    }

    #[test]
    fn one_and_many_and_none() {
        assert_eq!(
            says(1, 1, 2, 0, Ending::Apostrophe),
            "4 short names and types now end in an apostrophe: the volume's name, 1 user's name, 2 files' names"
        );
        assert_eq!(
            says(0, 2, 1, 3, Ending::Zeros),
            "6 short names and types now end in zeros alone: 2 users' names, 1 file's name, 3 types"
        );
        assert_eq!(
            says(0, 0, 0, 1, Ending::Zeros),
            "1 short name or type now ends in zeros alone: 1 type"
        );
        assert_eq!(says(0, 0, 0, 0, Ending::Zeros), "nothing to change: no name or type is short");
    }
}
