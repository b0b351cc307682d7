//! The letters of a map.

use super::legend::{Group, Part, Row};
use crate::unsound::Mark;
use std::collections::BTreeMap;

/// Users' letters: those of the system are left out.
const LETTERS: &str = "acdefghijklnpqrstvwxyz";

/// The letter of each user's files.
pub struct Letters {
    users: BTreeMap<u32, char>,
}

impl Letters {
    /// A user has the first letter of his name that no one before him has, else the first left; where all are taken they come again.
    pub fn of(rows: &[Row]) -> Letters {
        let mut users = BTreeMap::new();
        let mut left: Vec<char> = Vec::new();
        for row in rows {
            let Group::User(index) = row.group else { continue };
            if left.is_empty() {
                left = LETTERS.chars().collect();
            }
            let mut own = row.name.chars().map(|letter| letter.to_ascii_lowercase());
            let at = own.find_map(|letter| left.iter().position(|free| *free == letter)).unwrap_or(0);
            users.insert(index, left.remove(at));
        }
        Letters { users }
    }

    /// Whether some letter stands for several users.
    pub fn come_again(&self) -> bool {
        self.users.len() > LETTERS.len()
    }

    /// Small letters for pages, capitals for the blocks that lead to them and for the master and the bit file.
    pub fn letter(&self, group: Group, part: Part) -> char {
        let small = match group {
            Group::Free => '.',
            Group::Master => 'M',
            Group::BitFile => 'B',
            Group::UserFile => 'u',
            Group::ObjectFile => 'o',
            Group::User(index) => self.users.get(&index).copied().unwrap_or('?'),
            Group::Doubtful(Mark::Twice) => '2',
            Group::Doubtful(Mark::Clear) => '!',
            Group::Doubtful(Mark::Nobody) => '?',
        };
        match part {
            Part::Page => small,
            Part::Index | Part::Subindex => small.to_ascii_uppercase(),
        }
    }

    /// A group's letter in a picture, where the blocks have other marks.
    pub fn capital(&self, group: Group) -> String {
        self.letter(group, Part::Page).to_ascii_uppercase().to_string()
    }
}
