//! What an image holds, read for showing. Whether the image is sound is the proved library's to say (`proved::check`): a `Volume` and
//! `holders` mean something only where it passes. `Held` and `meaning` tell of any image what its words say. Nothing panics on any image, and
//! what does not lie in it reads as zeros.

mod disk;
mod fields;
mod holder;
mod meaning;
mod shorts;
mod stored;
mod told;
mod walk;
mod words;

pub use disk::{Disk, Entry, Pointer, BIT_POINTER, ENTRIES, ENTRIES_TO_A_PAGE, ENTRY_WORDS, OBJECT_BLOCKS, OBJECT_POINTER, SLOTS};
pub use disk::{UNRESERVED, USER_PAGES, USER_POINTER, VOLUME_NAME};
pub use fields::{number, pointer_says};
pub use holder::{Holder, Kind};
pub use meaning::{meaning, Meaning};
pub use shorts::{Short, Whose};
pub use stored::{character, Fill, Stored};
pub use walk::{holders, Held};

/// A volume with its users ascending.
#[derive(Clone, Debug, PartialEq, Eq)]
pub struct Volume {
    pub name: String,
    pub pages: u32,
    /// The ones of the bit file below `pages`.
    pub reserved: u32,
    pub unreserved: u32,
    pub users: Vec<User>,
}

/// A user with his files ascending.
#[derive(Clone, Debug, PartialEq, Eq)]
pub struct User {
    pub index: u32,
    pub name: String,
    pub given: u32,
    pub used: u32,
    pub files: Vec<File>,
}

#[derive(Clone, Debug, PartialEq, Eq)]
pub struct File {
    pub index: u32,
    pub name: String,
    pub type_name: String,
    pub pages: u32,
    pub kind: FileKind,
    pub opens: u32,
    pub created: u32,
}

#[derive(Clone, Copy, Debug, PartialEq, Eq)]
pub enum FileKind {
    Empty,
    Indexed,
    Subindexed,
    Contiguous,
}

impl FileKind {
    /// The kind as the listing has it.
    pub fn word(self) -> &'static str {
        match self {
            FileKind::Empty => "EMPTY",
            FileKind::Indexed => "INDEXED",
            FileKind::Subindexed => "SUBINDEXED",
            FileKind::Contiguous => "CONTIGUOUS",
        }
    }
}

impl Volume {
    /// The user with this index.
    pub fn user(&self, index: u32) -> Option<&User> {
        self.users
            .binary_search_by_key(&index, |user| user.index)
            .ok()
            .map(|at| &self.users[at])
    }

    /// Pages whose bit is clear.
    pub fn free(&self) -> u32 {
        self.pages.saturating_sub(self.reserved)
    }
}

impl User {
    /// The file with this index.
    pub fn file(&self, index: u32) -> Option<&File> {
        self.files
            .binary_search_by_key(&index, |file| file.index)
            .ok()
            .map(|at| &self.files[at])
    }
}

impl File {
    /// Name and type as the listing has them; the colon stays where the type is empty.
    pub fn full_name(&self) -> String {
        format!("{}:{}", self.name, self.type_name)
    }
}

/// What an image that `proved::check` passes holds.
pub fn read(image: &[u16]) -> Volume {
    of(&Disk::new(image))
}

/// The same of any image, as far as its words can be read.
pub fn of(disk: &Disk) -> Volume {
    Volume {
        name: disk.volume_name(),
        pages: disk.pages(),
        reserved: disk.reserved(),
        unreserved: disk.unreserved(),
        users: disk.users().map(|(index, entry)| read_user(disk, index, entry)).collect(),
    }
}

fn read_user(disk: &Disk, index: u32, entry: Entry) -> User {
    User {
        index,
        name: entry.name(),
        given: entry.given(),
        used: entry.used_pages(),
        files: disk.files(index).map(|(index, entry)| read_file(index, entry)).collect(),
    }
}

fn read_file(index: u32, entry: Entry) -> File {
    File {
        index,
        name: entry.name(),
        type_name: entry.type_name(),
        pages: entry.pages(),
        kind: match entry.pointer() {
            Pointer::None | Pointer::Both(_) => FileKind::Empty,
            Pointer::Plain(_) => FileKind::Contiguous,
            Pointer::Indexed(_) => FileKind::Indexed,
            Pointer::Subindexed(_) => FileKind::Subindexed,
        },
        opens: entry.opens(),
        created: entry.created(),
    }
}
