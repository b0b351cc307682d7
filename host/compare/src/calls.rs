//! The calls with their arguments, and how each is made of the proved library and of the second program.

use crate::lists;
use proved::{Change, Holder, Place};

/// One call. `Format` without a bit page is the header's nord_format_default; `Salvage` is lent a list with room for so many changes. Numbers
/// are as wide as the header has them.
#[derive(Clone, Debug, PartialEq)]
pub enum Call {
    Check,
    FindUser { name: Vec<u8> },
    FindFile { user: usize, name: Vec<u8>, kind: Vec<u8> },
    Address { user: usize, file: usize, position: usize },
    WhoHolds { page: usize },
    ReadPage { user: usize, file: usize, position: usize },
    Format { name: Vec<u8>, bit_page: Option<usize> },
    CreateUser { name: Vec<u8> },
    DeleteUser { user: usize },
    Give { user: usize, count: usize },
    Take { user: usize, count: usize },
    CreateIndexed { user: usize, name: Vec<u8>, kind: Vec<u8>, created: u32 },
    CreateContiguous { user: usize, name: Vec<u8>, kind: Vec<u8>, created: u32, count: usize },
    Grow { user: usize, file: usize },
    Shrink { user: usize, file: usize },
    DeleteFile { user: usize, file: usize },
    WritePage { user: usize, file: usize, position: usize, data: Data },
    NoteOpen { user: usize, file: usize },
    ConvertToApostrophe,
    ConvertToZeros,
    Salvage { room: usize },
}

/// The names of the calls, in the order of `Call::which`.
pub const NAMES: [&str; 22] = [
    "check",
    "find_user",
    "find_file",
    "address",
    "who_holds",
    "read_page",
    "format",
    "format_default",
    "create_user",
    "delete_user",
    "give",
    "take",
    "create_indexed",
    "create_contiguous",
    "grow",
    "shrink",
    "delete_file",
    "write_page",
    "note_open",
    "convert_to_apostrophe",
    "convert_to_zeros",
    "salvage",
];

/// Page data that a line of text can hold: so many words, counting up from the first by 77.
#[derive(Clone, Copy, Debug, PartialEq)]
pub struct Data {
    pub first: u16,
    pub length: usize,
}

impl Data {
    pub fn words(self) -> Vec<u16> {
        (0..self.length).map(|n| self.first.wrapping_add((n as u16).wrapping_mul(77))).collect()
    }
}

/// All numbers that any call answers; those that a call does not have are 0.
#[derive(Clone, Copy, Debug, Default, PartialEq)]
pub struct Answer {
    pub number: u32,
    pub rule: u32,
    pub value: u32,
    /// The first place that breaks the rule, and with rule 8 the first two holders of its page.
    pub place: Place,
    pub first: Holder,
    pub second: Holder,
    /// Who holds a page.
    pub holder: Holder,
    /// A part of the image.
    pub offset: usize,
    pub length: usize,
}

impl Answer {
    /// Every number of an answer with its name.
    fn fields(&self) -> Vec<(&'static str, usize)> {
        let of = |names: [&'static str; 4], holder: Holder| {
            names.into_iter().zip([holder.kind, holder.user, holder.file, holder.position].map(|number| number as usize))
        };
        let plain = [("number", self.number), ("rule", self.rule), ("value", self.value)];
        let place = [("page of the place", self.place.page), ("word of the place", self.place.word)];
        let mut fields: Vec<(&'static str, usize)> = plain.into_iter().chain(place).map(|(name, number)| (name, number as usize)).collect();
        fields.extend(of(
            ["kind of the first holder", "user of the first holder", "file of the first holder", "position of the first holder"],
            self.first,
        ));
        fields.extend(of(
            ["kind of the second holder", "user of the second holder", "file of the second holder", "position of the second holder"],
            self.second,
        ));
        fields.extend(of(["kind", "user", "file", "position"], self.holder));
        fields.extend([("offset", self.offset), ("length", self.length)]);
        fields
    }

    /// The name of the first number in which two answers differ.
    pub fn first_difference(&self, other: &Answer) -> Option<&'static str> {
        if self == other {
            return None;
        }
        let both = self.fields().into_iter().zip(other.fields());
        both.into_iter().find(|(one, two)| one.1 != two.1).map(|(one, _)| one.0)
    }
}

impl From<proved::Reply> for Answer {
    fn from(of: proved::Reply) -> Answer {
        let proved::Reply { number, rule, value, place, first, second } = of;
        Answer { number, rule, value, place, first, second, ..Answer::default() }
    }
}

impl From<second::Reply> for Answer {
    fn from(of: second::Reply) -> Answer {
        let second::Reply { number, rule, value, place: second::Place { page, word }, first, second } = of;
        Answer { number, rule, value, place: Place { page, word }, first: same(first), second: same(second), ..Answer::default() }
    }
}

impl From<proved::HolderReply> for Answer {
    fn from(of: proved::HolderReply) -> Answer {
        let proved::HolderReply { number, rule, holder, place, first, second } = of;
        Answer { number, rule, holder, place, first, second, ..Answer::default() }
    }
}

impl From<second::HolderReply> for Answer {
    fn from(of: second::HolderReply) -> Answer {
        Answer { holder: same(of.holder), ..Answer::from(of.reply) }
    }
}

/// A holder of the second program as one of the proved library.
fn same(of: second::Holder) -> Holder {
    let second::Holder { kind, user, file, position } = of;
    Holder { kind, user, file, position }
}

/// A part of an image by its place. An empty part has no place, and no number comes with either.
fn place_of(part: &[u16], image: &[u16]) -> Answer {
    let offset = if part.is_empty() { 0 } else { (part.as_ptr() as usize - image.as_ptr() as usize) / 2 };
    Answer { offset, length: part.len(), ..Answer::default() }
}

/// Makes a call of one of the two programs, whose functions have the same names and arguments. The changes are a salvage's list.
macro_rules! made_of {
    ($program:ident, $call:expr, $image:expr, $changes:expr) => {{
        use $program::*;
        match $call {
            Call::Check => check($image).into(),
            Call::FindUser { name } => find_user($image, name).into(),
            Call::FindFile { user, name, kind } => find_file($image, *user, name, kind).into(),
            Call::Address { user, file, position } => address($image, *user, *file, *position).into(),
            Call::WhoHolds { page } => who_holds($image, *page).into(),
            Call::ReadPage { user, file, position } => place_of(read_page($image, *user, *file, *position), $image),
            Call::Format { name, bit_page } => format($image, name, *bit_page).into(),
            Call::CreateUser { name } => create_user($image, name).into(),
            Call::DeleteUser { user } => delete_user($image, *user).into(),
            Call::Give { user, count } => give($image, *user, *count).into(),
            Call::Take { user, count } => take($image, *user, *count).into(),
            Call::CreateIndexed { user, name, kind, created } => create_indexed($image, *user, name, kind, *created).into(),
            Call::CreateContiguous { user, name, kind, created, count } => {
                create_contiguous($image, *user, name, kind, *created, *count).into()
            }
            Call::Grow { user, file } => grow($image, *user, *file).into(),
            Call::Shrink { user, file } => shrink($image, *user, *file).into(),
            Call::DeleteFile { user, file } => delete_file($image, *user, *file).into(),
            Call::WritePage { user, file, position, data } => write_page($image, *user, *file, *position, &data.words()).into(),
            Call::NoteOpen { user, file } => note_open($image, *user, *file).into(),
            Call::ConvertToApostrophe => convert_to_apostrophe($image).into(),
            Call::ConvertToZeros => convert_to_zeros($image).into(),
            Call::Salvage { .. } => salvage($image, $changes).into(),
        }
    }};
}

impl Call {
    /// The place of the call's name in `NAMES`.
    pub fn which(&self) -> usize {
        match self {
            Call::Check => 0,
            Call::FindUser { .. } => 1,
            Call::FindFile { .. } => 2,
            Call::Address { .. } => 3,
            Call::WhoHolds { .. } => 4,
            Call::ReadPage { .. } => 5,
            Call::Format { bit_page: Some(_), .. } => 6,
            Call::Format { bit_page: None, .. } => 7,
            Call::CreateUser { .. } => 8,
            Call::DeleteUser { .. } => 9,
            Call::Give { .. } => 10,
            Call::Take { .. } => 11,
            Call::CreateIndexed { .. } => 12,
            Call::CreateContiguous { .. } => 13,
            Call::Grow { .. } => 14,
            Call::Shrink { .. } => 15,
            Call::DeleteFile { .. } => 16,
            Call::WritePage { .. } => 17,
            Call::NoteOpen { .. } => 18,
            Call::ConvertToApostrophe => 19,
            Call::ConvertToZeros => 20,
            Call::Salvage { .. } => 21,
        }
    }

    /// The list that is lent to the call; one that is no salvage has none.
    pub fn list(&self) -> Vec<Change> {
        match self {
            Call::Salvage { room } => lists::lent(*room),
            _ => Vec::new(),
        }
    }

    /// Makes the call of the proved library, with its list.
    pub fn on_proved_with(&self, image: &mut [u16], changes: &mut [Change]) -> Answer {
        made_of!(proved, self, image, changes)
    }

    /// Makes the call of the second program, with its list.
    pub fn on_second_with(&self, image: &mut [u16], changes: &mut [second::Change]) -> Answer {
        made_of!(second, self, image, changes)
    }

    /// Makes the call of the proved library, for its answer and the image.
    pub fn on_proved(&self, image: &mut [u16]) -> Answer {
        self.on_proved_with(image, &mut self.list())
    }

    /// Makes the call of the second program, for its answer and the image.
    pub fn on_second(&self, image: &mut [u16]) -> Answer {
        self.on_second_with(image, &mut lists::to_second(&self.list()))
    }
}
