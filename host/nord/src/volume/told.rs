//! Users, files and holders in words, by the names that stand in the image; on an unsound image as far as they can be read.

use super::disk::{Disk, ENTRIES};
use super::{Holder, Kind, Whose};

impl Disk<'_> {
    /// "user 0 DOCK", or "user 5" where there is no name.
    pub fn user_words(&self, user: u32) -> String {
        match self.user(user).map(|entry| entry.name()) {
            Some(name) if !name.is_empty() => format!("user {user} {name}"),
            _ => format!("user {user}"),
        }
    }

    /// "DOCK/READS:DATA (user 0 file 0)", or the numbers alone where there is no name.
    pub fn file_words(&self, user: u32, file: u32) -> String {
        match self.path(user, file) {
            Some(path) => format!("{path} (user {user} file {file})"),
            None => format!("user {user} file {file}"),
        }
    }

    /// "DOCK/READS:DATA", where both entries are used.
    pub fn path(&self, user: u32, file: u32) -> Option<String> {
        let (owner, entry) = (self.user(user)?, self.object(ENTRIES * user + file)?);
        Some(format!("{}/{}:{}", owner.name(), entry.name(), entry.type_name()))
    }

    /// "the name of user 0 DOCK", "the type of DOCK/READS:DATA (user 0 file 0)".
    pub fn whose_words(&self, whose: Whose) -> String {
        match whose {
            Whose::Volume => format!("the name of volume {}", self.volume_name()),
            Whose::User(user) => format!("the name of {}", self.user_words(user)),
            Whose::File(user, file) => format!("the name of {}", self.file_words(user, file)),
            Whose::Type(user, file) => format!("the type of {}", self.file_words(user, file)),
        }
    }

    /// Who holds a page: "data page 2 of DOCK/READS:DATA (user 0 file 0)".
    pub fn holder_words(&self, holder: &Holder) -> String {
        let Holder {
            kind,
            user,
            file,
            position,
        } = *holder;
        match kind {
            Kind::UserPage | Kind::ObjectIndex | Kind::ObjectPage => format!("{} {position}", kind.word()),
            Kind::FileSubindex => format!("{} of {}", kind.word(), self.file_words(user, file)),
            Kind::FileIndex | Kind::FileData => format!("{} {position} of {}", kind.word(), self.file_words(user, file)),
            Kind::BitFile if self.bit_pages() > 1 => format!("{} of the bit file's {} pages", ordinal(position), self.bit_pages()),
            _ => kind.word().to_string(),
        }
    }

    /// The same within a sentence: "the bit file", but "data page 2 of ..".
    pub fn holder_phrase(&self, holder: &Holder) -> String {
        let words = self.holder_words(holder);
        match holder.kind {
            Kind::UserPage | Kind::ObjectIndex | Kind::ObjectPage | Kind::FileIndex | Kind::FileData => words,
            _ => format!("the {words}"),
        }
    }
}

/// The bit pages of the largest volume, by position.
const ORDINALS: [&str; 9] = ["first", "second", "third", "fourth", "fifth", "sixth", "seventh", "eighth", "ninth"];

/// "second", of position 1.
fn ordinal(position: u32) -> String {
    let word = ORDINALS.get(position as usize).map(|word| word.to_string());
    word.unwrap_or_else(|| format!("number {position}"))
}
