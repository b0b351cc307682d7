//! Who holds a page.

use super::disk::ENTRIES;

/// What a page is, with the numbers of host/include/nord.h.
#[derive(Clone, Copy, Debug, Default, PartialEq, Eq, Hash, PartialOrd, Ord)]
#[repr(u32)]
pub enum Kind {
    #[default]
    Free = 0,
    Master = 1,
    BitFile = 2,
    UserIndex = 3,
    UserPage = 4,
    ObjectSubindex = 5,
    ObjectIndex = 6,
    ObjectPage = 7,
    FileSubindex = 8,
    FileIndex = 9,
    FileData = 10,
}

/// Who holds a page. `user` and `file` are 0 unless a file holds it; `position` counts as in nord.h.
#[derive(Clone, Copy, Debug, Default, PartialEq, Eq)]
pub struct Holder {
    pub kind: Kind,
    pub user: u32,
    pub file: u32,
    pub position: u32,
}

impl Holder {
    /// A page of the system.
    pub fn system(kind: Kind, position: u32) -> Holder {
        Holder {
            kind,
            user: 0,
            file: 0,
            position,
        }
    }

    /// A page of the file with this entry number.
    pub fn of_file(number: u32, kind: Kind, position: u32) -> Holder {
        Holder {
            kind,
            user: number / ENTRIES,
            file: number % ENTRIES,
            position,
        }
    }
}

/// The kinds by number, and in words.
const KINDS: [(Kind, &str); 11] = [
    (Kind::Free, "free"),
    (Kind::Master, "master"),
    (Kind::BitFile, "bit file"),
    (Kind::UserIndex, "user index"),
    (Kind::UserPage, "user page"),
    (Kind::ObjectSubindex, "object subindex"),
    (Kind::ObjectIndex, "object index"),
    (Kind::ObjectPage, "object page"),
    (Kind::FileSubindex, "subindex block"),
    (Kind::FileIndex, "index block"),
    (Kind::FileData, "data page"),
];

impl Kind {
    pub fn word(self) -> &'static str {
        KINDS[self as usize].1
    }

    /// Whether a file holds pages of this kind.
    pub fn of_a_file(self) -> bool {
        self >= Kind::FileSubindex
    }
}

impl From<proved::Holder> for Holder {
    /// The library's holder; a kind that it has not is free.
    fn from(holder: proved::Holder) -> Holder {
        let kind = KINDS.get(holder.kind as usize).map_or(Kind::Free, |(kind, _)| *kind);
        let proved::Holder { user, file, position, .. } = holder;
        Holder {
            kind,
            user,
            file,
            position,
        }
    }
}

#[cfg(test)]
mod tests {
    use super::KINDS;

    #[test]
    fn each_kind_has_its_number() {
        (0u32..).zip(KINDS).for_each(|(number, (kind, _))| assert_eq!(kind as u32, number));
    }
}
