//! A volume for other programs to read: what the listing says, each file's opens and creation number, and who holds a page.

use crate::volume::{self, Disk, Volume, ENTRIES};
use serde::Serialize;

/// A volume with its users.
#[derive(Serialize)]
pub struct Listed {
    name: String,
    pages: u32,
    reserved: u32,
    unreserved: u32,
    users: Vec<User>,
}

/// A user with his files.
#[derive(Serialize)]
struct User {
    index: u32,
    name: String,
    given: u32,
    used: u32,
    files: Vec<File>,
}

#[derive(Serialize)]
pub struct File {
    pub index: u32,
    pub name: String,
    #[serde(rename = "type")]
    pub type_name: String,
    pub pages: u32,
    pub kind: &'static str,
    pub opens: u32,
    pub created: u32,
}

impl From<&Volume> for Listed {
    fn from(volume: &Volume) -> Listed {
        Listed {
            name: volume.name.clone(),
            pages: volume.pages,
            reserved: volume.reserved,
            unreserved: volume.unreserved,
            users: volume.users.iter().map(User::from).collect(),
        }
    }
}

impl From<&volume::User> for User {
    fn from(user: &volume::User) -> User {
        User {
            index: user.index,
            name: user.name.clone(),
            given: user.given,
            used: user.used,
            files: user.files.iter().map(File::from).collect(),
        }
    }
}

impl From<&volume::File> for File {
    fn from(file: &volume::File) -> File {
        File {
            index: file.index,
            name: file.name.clone(),
            type_name: file.type_name.clone(),
            pages: file.pages,
            kind: file.kind.word(),
            opens: file.opens,
            created: file.created,
        }
    }
}

/// A holder with all its numbers; names only where they are wanted, and only of a file.
#[derive(Clone, Debug, Serialize)]
pub struct Holder {
    holder: &'static str,
    kind: u32,
    user: u32,
    file: u32,
    position: u32,
    #[serde(flatten)]
    names: Option<Names>,
}

/// The names of a holder's user and file, where they can be read.
#[derive(Clone, Debug, Serialize)]
struct Names {
    user_name: Option<String>,
    file_name: Option<String>,
    type_name: Option<String>,
}

impl From<&volume::Holder> for Holder {
    fn from(holder: &volume::Holder) -> Holder {
        Holder {
            holder: holder.kind.word(),
            kind: holder.kind as u32,
            user: holder.user,
            file: holder.file,
            position: holder.position,
            names: None,
        }
    }
}

impl Holder {
    /// With the names of his user and his file.
    pub fn named(disk: &Disk, holder: &volume::Holder) -> Holder {
        let file = disk.object(ENTRIES * holder.user + holder.file);
        let names = || Names {
            user_name: disk.user(holder.user).map(|entry| entry.name()),
            file_name: file.map(|entry| entry.name()),
            type_name: file.map(|entry| entry.type_name()),
        };
        Holder {
            names: holder.kind.of_a_file().then(names),
            ..Holder::from(holder)
        }
    }
}
