//! What the cells of a map are told apart by, and how many there are of each.

use super::page::Page;
use crate::palette::{self, Colour};
use crate::unsound::Mark;
use crate::volume::{Kind, Volume};
use std::collections::BTreeMap;

/// Pages of one colour.
#[derive(Clone, Copy, Debug, PartialEq, Eq, PartialOrd, Ord)]
pub enum Group {
    Free,
    Master,
    BitFile,
    UserFile,
    ObjectFile,
    /// A user's files.
    User(u32),
    /// Pages of an unsound image that are doubtful.
    Doubtful(Mark),
}

/// What a page is within its group.
#[derive(Clone, Copy, Debug, PartialEq, Eq)]
pub enum Part {
    Page,
    Index,
    Subindex,
}

impl Group {
    pub const SYSTEM: [Group; 5] = [Group::Free, Group::Master, Group::BitFile, Group::UserFile, Group::ObjectFile];

    pub fn of(page: &Page) -> Group {
        if let Some(mark) = page.mark {
            return Group::Doubtful(mark);
        }
        match page.holder.kind {
            Kind::Free => Group::Free,
            Kind::Master => Group::Master,
            Kind::BitFile => Group::BitFile,
            Kind::UserIndex | Kind::UserPage => Group::UserFile,
            Kind::ObjectSubindex | Kind::ObjectIndex | Kind::ObjectPage => Group::ObjectFile,
            Kind::FileSubindex | Kind::FileIndex | Kind::FileData => Group::User(page.holder.user),
        }
    }

    pub fn colour(self) -> Colour {
        match self {
            Group::Free => palette::FREE,
            Group::Master => palette::MASTER,
            Group::BitFile => palette::BIT_FILE,
            Group::UserFile => palette::USER_FILE,
            Group::ObjectFile => palette::OBJECT_FILE,
            Group::User(index) => palette::user(index),
            Group::Doubtful(Mark::Twice) => palette::TWICE,
            Group::Doubtful(Mark::Clear) => palette::CLEAR,
            Group::Doubtful(Mark::Nobody) => palette::NOBODY,
        }
    }

    pub fn name(self, volume: &Volume) -> String {
        match self {
            Group::Free => "free".to_string(),
            Group::Master => "master block".to_string(),
            Group::BitFile => "bit file".to_string(),
            Group::UserFile => "user file".to_string(),
            Group::ObjectFile => "object file".to_string(),
            Group::User(index) => volume.user(index).map_or_else(|| format!("user {index}"), |user| user.name.clone()),
            Group::Doubtful(mark) => mark.words().to_string(),
        }
    }
}

impl Part {
    /// A page that is doubtful is shown as that, whatever it is.
    pub fn of(page: &Page) -> Part {
        match page.holder.kind {
            _ if page.mark.is_some() => Part::Page,
            Kind::UserIndex | Kind::ObjectIndex | Kind::FileIndex => Part::Index,
            Kind::ObjectSubindex | Kind::FileSubindex => Part::Subindex,
            _ => Part::Page,
        }
    }
}

/// The colour of a page.
pub fn colour(page: &Page) -> Colour {
    let colour = Group::of(page).colour();
    match Part::of(page) {
        Part::Page => colour,
        Part::Index | Part::Subindex => colour.darker(),
    }
}

/// A line of the legend.
pub struct Row {
    pub group: Group,
    pub name: String,
    pub pages: u32,
    /// The pages given to a user.
    pub given: Option<u32>,
}

/// What a map's cells are, counted.
pub struct Legend {
    /// The system's groups, then the users who hold pages or are given some, ascending. Their pages are all the volume's.
    pub rows: Vec<Row>,
    /// Users who neither hold a page nor are given one.
    pub others: usize,
    /// Whether the map has index blocks, and subindex blocks.
    pub index: bool,
    pub subindex: bool,
}

impl Legend {
    pub fn of(volume: &Volume, pages: &[Page]) -> Legend {
        let users = volume.users.iter().map(|user| Group::User(user.index));
        let mut counts: BTreeMap<Group, u32> = Group::SYSTEM.into_iter().chain(users).map(|group| (group, 0)).collect();
        for page in pages {
            *counts.entry(Group::of(page)).or_default() += 1;
        }
        let all = counts.into_iter().map(|(group, pages)| row(volume, group, pages));
        let (rows, others): (Vec<Row>, Vec<Row>) = all.partition(|row| row.pages > 0 || row.given != Some(0));
        let has = |part: Part| pages.iter().any(|page| Part::of(page) == part);
        Legend {
            rows,
            others: others.len(),
            index: has(Part::Index),
            subindex: has(Part::Subindex),
        }
    }

    /// What is said of the users without a line of their own.
    pub fn others_in_words(&self) -> Option<String> {
        match self.others {
            0 => None,
            1 => Some("1 user more, without pages".to_string()),
            many => Some(format!("{many} users more, without pages")),
        }
    }
}

fn row(volume: &Volume, group: Group, pages: u32) -> Row {
    let user = match group {
        Group::User(index) => volume.user(index),
        _ => None,
    };
    Row {
        group,
        name: group.name(volume),
        pages,
        given: user.map(|user| user.given),
    }
}

/// The numbers above a map: "154 pages, 92 free, 62 reserved, 23 unreserved".
pub fn numbers(volume: &Volume, pages: &[Page]) -> String {
    let free = pages.iter().filter(|page| Group::of(page) == Group::Free).count();
    let [pages, free] = [pages.len(), free].map(grouped);
    let [reserved, unreserved] = [volume.reserved, volume.unreserved].map(|number| grouped(number as usize));
    format!("{pages} pages, {free} free, {reserved} reserved, {unreserved} unreserved")
}

/// A number with a comma before each three digits: "16,384".
pub fn grouped(number: usize) -> String {
    let digits = number.to_string();
    let mut grouped = String::new();
    for (at, digit) in digits.chars().enumerate() {
        if at > 0 && (digits.len() - at).is_multiple_of(3) {
            grouped.push(',');
        }
        grouped.push(digit);
    }
    grouped
}

#[cfg(test)]
mod tests {
    use super::grouped;

    #[test]
    fn commas_before_each_three_digits() {
        assert_eq!(
            [0, 7, 999, 1000, 16_384, 1_234_567].map(grouped),
            ["0", "7", "999", "1,000", "16,384", "1,234,567"]
        );
    }
}
