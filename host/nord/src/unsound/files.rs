//! Rule 6 as it concerns one file, and all doubts about a file.

use super::doubt::Doubt;
use super::judge::Judge;
use super::shapes::File;
use crate::volume::{Disk, ENTRIES};
use std::collections::HashMap;

/// Files of a user that have the name and type of a lower file of his: their indexes, and those of the lower ones.
pub type Twins = HashMap<u32, u32>;

/// The files of a user that are not the first with their name and type.
pub fn twins(disk: &Disk, user: u32) -> Twins {
    let mut first: HashMap<(Vec<u8>, Vec<u8>), u32> = HashMap::new();
    let mut twins = Twins::new();
    for (file, entry) in disk.files(user) {
        let name = (entry.stored_name().name().to_vec(), entry.stored_type().name().to_vec());
        let lower = *first.entry(name).or_insert(file);
        if lower < file {
            twins.insert(file, lower);
        }
    }
    twins
}

impl<'a> Judge<'a> {
    /// The used entry of a file.
    pub fn file(&self, user: u32, file: u32) -> Option<File<'a>> {
        if user >= ENTRIES || file >= ENTRIES {
            return None;
        }
        let number = ENTRIES * user + file;
        let entry = self.disk.object(number)?;
        Some(File { number, entry })
    }

    /// A user's files, ascending, whether he is used or not.
    pub fn files(&self, user: u32) -> Vec<File<'a>> {
        let of = |(file, entry)| File {
            number: ENTRIES * user + file,
            entry,
        };
        self.disk.files(user).map(of).collect()
    }

    /// Rule 6: the entry, in the order of its words.
    pub fn entry(&self, file: &File, twins: &Twins) -> Vec<Doubt> {
        let (user, entry) = (file.user(), &file.entry);
        let word = |at: usize| u32::from(entry.words.get(at).copied().unwrap_or(0));
        let (owner, own) = (word(16), word(17));
        let twin = twins.get(&file.index());
        let faults = [
            (0, self.disk.user(user).is_none().then(|| format!("owner {user} is not used"))),
            (1, (!entry.stored_name().is_legal(1)).then(|| "name is not legal".to_string())),
            (1, twin.map(|lower| format!("name and type are file {lower}'s too"))),
            (9, (!entry.stored_type().is_legal(0)).then(|| "type is not legal".to_string())),
            (16, (owner != user).then(|| format!("user index {owner}, not {user}"))),
            (17, (own != file.number).then(|| format!("entry number {own}, not {}", file.number))),
        ];
        let told = faults.into_iter().filter_map(|(word, words)| Some((word, words?)));
        told.map(|(word, words)| file.doubt(&self.disk, 6, word, words)).collect()
    }

    /// Rules 6 and 7: what is wrong with a file whoever else holds its pages.
    pub fn own_doubts(&self, file: &File, twins: &Twins) -> Vec<Doubt> {
        let mut doubts = self.entry(file, twins);
        doubts.extend(self.shape(file));
        doubts
    }

    /// All doubts about a file, by rule.
    pub fn doubts(&self, file: &File, twins: &Twins) -> Vec<Doubt> {
        let mut doubts = self.own_doubts(file, twins);
        doubts.extend(self.held_twice(file));
        doubts.extend(self.not_reserved(file));
        doubts
    }
}
