//! What a volume will have once a list of calls is made: which users and files, and how many pages each file. The library is the judge: what is
//! forecast is compared with what it answers.

use crate::names::UserName;
use crate::volume::{self, File, FileKind, User, Volume, ENTRIES};
use proved::MOST_PAGES;

/// Users and files as they will be.
pub struct Forecast(Volume);

impl Forecast {
    /// Of an image as it is. Of an unsound one it means nothing, and no call is made.
    pub fn of(image: &[u16]) -> Forecast {
        Forecast(volume::read(image))
    }

    /// The index of the user of this name.
    pub fn user(&self, name: &str) -> Option<u32> {
        self.0.users.iter().find(|user| user.name == name).map(|user| user.index)
    }

    /// The index of a user as people name him; an index is taken as it is.
    pub fn index(&self, user: &UserName) -> Option<u32> {
        match user {
            UserName::Index(index) => Some(index.value),
            UserName::Name(name) => self.user(name),
        }
    }

    /// A user's file of this name and type.
    pub fn file_named(&self, user: u32, name: &str, kind: &str) -> Option<&File> {
        let files = &self.0.user(user)?.files;
        files.iter().find(|file| file.name == name && file.type_name == kind)
    }

    /// A file by its indexes.
    pub fn file(&self, (user, file): (u32, u32)) -> Option<&File> {
        self.0.user(user)?.file(file)
    }

    /// A user's files, ascending.
    pub fn files(&self, user: u32) -> &[File] {
        self.0.user(user).map_or(&[], |user| &user.files)
    }

    /// A file's pages; no more than any file can have, whatever the words of an unsound image say.
    pub fn pages(&self, place: (u32, u32)) -> Option<u32> {
        self.file(place).map(|file| file.pages.min(MOST_PAGES as u32))
    }

    /// A new user, and his index: the lowest that no user has.
    pub fn add_user(&mut self, name: &str) -> Option<u32> {
        let index = lowest(self.0.users.iter().map(|user| user.index))?;
        let user = User {
            index,
            name: name.to_string(),
            given: 0,
            used: 0,
            files: Vec::new(),
        };
        self.0.users.insert(index as usize, user);
        Some(index)
    }

    pub fn remove_user(&mut self, user: u32) {
        self.0.users.retain(|other| other.index != user);
    }

    /// A new file of so many pages, and its index.
    pub fn add_file(&mut self, user: u32, name: &str, kind: &str, contiguous: Option<u32>) -> Option<u32> {
        let files = &mut user_mut(&mut self.0, user)?.files;
        let index = lowest(files.iter().map(|file| file.index))?;
        let file = File {
            index,
            name: name.to_string(),
            type_name: kind.to_string(),
            pages: contiguous.unwrap_or(0),
            kind: if contiguous.is_some() {
                FileKind::Contiguous
            } else {
                FileKind::Empty
            },
            opens: 0,
            created: 0,
        };
        files.insert(index as usize, file);
        Some(index)
    }

    pub fn remove_file(&mut self, (user, file): (u32, u32)) {
        if let Some(user) = user_mut(&mut self.0, user) {
            user.files.retain(|other| other.index != file);
        }
    }

    /// A file gets another page count.
    pub fn resize(&mut self, (user, file): (u32, u32), pages: u32) {
        let files = user_mut(&mut self.0, user).map(|user| &mut user.files);
        if let Some(file) = files.and_then(|files| files.iter_mut().find(|other| other.index == file)) {
            file.pages = pages;
        }
    }

    /// A format leaves no users.
    pub fn clear(&mut self) {
        self.0.users.clear();
    }
}

fn user_mut(volume: &mut Volume, index: u32) -> Option<&mut User> {
    volume.users.iter_mut().find(|user| user.index == index)
}

/// The lowest index that is not among these, which ascend.
fn lowest(used: impl Iterator<Item = u32>) -> Option<u32> {
    let free = (0..).zip(used).take_while(|(free, used)| free == used).count() as u32;
    (free < ENTRIES).then_some(free)
}

#[cfg(test)]
mod tests {
    use super::lowest;

    #[test]
    fn the_lowest_index_that_is_free() {
        assert_eq!(lowest([].into_iter()), Some(0));
        assert_eq!(lowest([0, 1, 3].into_iter()), Some(2));
        assert_eq!(lowest([1, 2].into_iter()), Some(0));
        assert_eq!(lowest(0..256), None);
    }
}
