//! The fields of the directory entry, of a user's entry and of a file's: where document 01 puts them.

use super::disk::Pointer;
use super::stored::Stored;

/// How the words of a field are read.
#[derive(Clone, Copy, Debug, PartialEq, Eq)]
pub enum Form {
    /// Bit 15 says that the entry is used.
    Mark,
    /// A name or a type, two bytes to a word.
    Letters,
    /// A number of one word or of two.
    Number,
    /// A pointer with its flags.
    Pointer,
}

/// Words that are one thing.
#[derive(Clone, Copy, Debug, PartialEq, Eq)]
pub struct Field {
    pub name: &'static str,
    pub first: u32,
    pub words: u32,
    pub form: Form,
}

const fn field(name: &'static str, first: u32, words: u32, form: Form) -> Field {
    Field { name, first, words, form }
}

/// The directory entry, by words of page 0.
pub const DIRECTORY: [Field; 5] = [
    field("volume name", 1008, 8, Form::Letters),
    field("object pointer", 1016, 2, Form::Pointer),
    field("user pointer", 1018, 2, Form::Pointer),
    field("bit file pointer", 1020, 2, Form::Pointer),
    field("unreserved pages", 1022, 2, Form::Number),
];

/// A user's entry.
pub const USER: [Field; 5] = [
    field("used mark", 0, 1, Form::Mark),
    field("name", 1, 8, Form::Letters),
    field("given pages", 14, 2, Form::Number),
    field("used pages", 16, 2, Form::Number),
    field("own index", 18, 1, Form::Number),
];

/// A file's entry.
pub const OBJECT: [Field; 10] = [
    field("used mark", 0, 1, Form::Mark),
    field("name", 1, 8, Form::Letters),
    field("type", 9, 2, Form::Letters),
    field("user index", 16, 1, Form::Number),
    field("own entry number", 17, 1, Form::Number),
    field("total opens", 19, 1, Form::Number),
    field("created", 20, 2, Form::Number),
    field("pages", 26, 2, Form::Number),
    field("bytes", 28, 2, Form::Number),
    field("pointer", 30, 2, Form::Pointer),
];

/// The field that a word belongs to.
pub fn of(table: &[Field], word: u32) -> Option<Field> {
    table
        .iter()
        .find(|field| (field.first..field.first + field.words).contains(&word))
        .copied()
}

impl Field {
    /// What the field's words say: a name, a number, a pointer.
    pub fn says(&self, words: &[u16]) -> String {
        match self.form {
            Form::Mark if words.first().is_some_and(|word| word >> 15 == 1) => "used".to_string(),
            Form::Mark => "not used".to_string(),
            Form::Letters => letters_say(words),
            Form::Number => number(words).to_string(),
            Form::Pointer => pointer_says(number(words)),
        }
    }

    /// What stands in the field's words behind the end of a name or type.
    pub fn leftovers(&self, words: &[u16]) -> Option<String> {
        (self.form == Form::Letters).then(|| Stored::of(words).leftovers())?
    }

    /// The pointer that the field's words are.
    pub fn pointer(&self, words: &[u16]) -> Option<Pointer> {
        (self.form == Form::Pointer).then(|| Pointer::of(number(words)))
    }
}

/// A number of one word, or of two with the more significant first.
pub fn number(words: &[u16]) -> u32 {
    words.iter().fold(0, |number, word| number << 16 | u32::from(*word))
}

/// A name or a type.
fn letters_say(words: &[u16]) -> String {
    let stored = Stored::of(words);
    match stored.name().is_empty() {
        true => "empty".to_string(),
        false => stored.to_string(),
    }
}

/// A pointer in words: "indexed, page 6".
pub fn pointer_says(number: u32) -> String {
    match Pointer::of(number) {
        Pointer::None => "none".to_string(),
        Pointer::Plain(page) => format!("page {page}"),
        Pointer::Indexed(page) => format!("indexed, page {page}"),
        Pointer::Subindexed(page) => format!("subindexed, page {page}"),
        Pointer::Both(page) => format!("indexed and subindexed at once, page {page}"),
    }
}
