//! Rules 4 and 10 as they concern one user.

use super::doubt::Doubt;
use super::judge::Judge;
use super::shapes::File;
use crate::volume::{Entry, ENTRIES_TO_A_PAGE, ENTRY_WORDS};

/// The first words of a user's name and of his used pages, and the word of his index.
const NAME: u32 = 1;
const USED: u32 = 16;
const INDEX: u32 = 18;

impl Judge<'_> {
    /// What is doubtful about a used user who has these files.
    pub fn user_doubts(&self, user: u32, entry: &Entry, files: &[File]) -> Vec<Doubt> {
        let page = self.disk.user_page(user / ENTRIES_TO_A_PAGE);
        let doubt = |rule: u32, word: u32, words: String| Doubt::new(rule, page, ENTRY_WORDS * (user % ENTRIES_TO_A_PAGE) + word, words);
        let (given, used) = (entry.given(), entry.used_pages());
        let index = u32::from(entry.words.get(INDEX as usize).copied().unwrap_or(0));
        let held: u64 = files.iter().map(|file| self.holds(file)).sum();
        let name = entry.stored_name();
        let mut doubts = Vec::new();
        if !name.is_legal(1) {
            doubts.push(doubt(4, NAME, "name is not legal".to_string()));
        } else if let Some(lower) = self.same_name(user, entry) {
            doubts.push(doubt(4, NAME, format!("name is user {lower}'s too")));
        }
        if used > given {
            doubts.push(doubt(4, USED, format!("used {used} is above given {given}")));
        }
        if index != user {
            doubts.push(doubt(4, INDEX, format!("own index {index}, not {user}")));
        }
        if held != u64::from(used) {
            doubts.push(doubt(10, USED, format!("used {used}, his files hold {held}")));
        }
        doubts
    }

    /// The lowest user before this one who has his name.
    pub fn same_name(&self, user: u32, entry: &Entry) -> Option<u32> {
        let name = entry.stored_name();
        let mut lower = self.disk.users().take_while(|(lower, _)| *lower < user);
        lower.find(|(_, other)| other.stored_name() == name).map(|(lower, _)| lower)
    }
}
