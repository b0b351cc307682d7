//! One word of a page, in more detail.

use super::{characters, Page};
use crate::answers::item;
use crate::broken::octal;
use crate::volume::{Kind, Meaning, Pointer};

impl Page<'_> {
    pub fn word_text(&self, word: u32) -> String {
        let value = self.value(word);
        let mut lines = vec![format!(
            "page {} of {}, word {word} (octal {word:o})",
            self.number,
            self.disk.pages()
        )];
        lines.extend(self.head());
        lines.extend([
            item("octal", &format!("{value:06o}")),
            item("decimal", &value.to_string()),
            item("bytes", &bytes(value)),
            item("bits", &format!("{value:016b}, {}", set(value))),
        ]);
        self.meanings(word)
            .iter()
            .for_each(|meaning| lines.extend(self.meaning_lines(meaning)));
        if let Some(holder) = self.holders().iter().find(|holder| holder.kind == Kind::BitFile) {
            lines.extend(self.bit_lines(holder.position, word));
        }
        if let Some(broken) = self.broken_at(word) {
            lines.push(item("broken", &format!("here: {}", broken.what())));
            lines.extend(broken.expected().map(|expected| item("expected", &expected)));
        }
        lines.iter().map(|line| format!("{}\n", line.trim_end())).collect()
    }

    /// What the word is, all words that are one thing with it, what they say, and what is left behind a name.
    fn meaning_lines(&self, meaning: &Meaning) -> Vec<String> {
        let words = self.disk.words(self.number, meaning.first, meaning.words);
        let mut lines = vec![item("it is", &meaning.what)];
        if words.len() > 1 {
            lines.push(item("together", &octal(words)));
        }
        if !meaning.says.is_empty() {
            lines.push(item("it says", &meaning.says));
        }
        if let Some(leftovers) = &meaning.leftovers {
            lines.push(item("leftovers", &format!("{leftovers} (behind its end, and ignored)")));
        }
        lines.extend(self.leads(meaning).map(|to| item("leads to", &to)));
        lines
    }

    /// Where a pointer leads.
    fn leads(&self, meaning: &Meaning) -> Option<String> {
        let page = match meaning.pointer? {
            Pointer::None => return None,
            Pointer::Plain(page) | Pointer::Indexed(page) | Pointer::Subindexed(page) | Pointer::Both(page) => page,
        };
        Some(match page < self.disk.pages() {
            true => format!("page {page}, held as {}", self.disk.holder_words(&self.held.first(page))),
            false => format!("page {page}, which the image does not have"),
        })
    }

    /// The pages that a word of the bit file's page at this position tells of, each with its bit and its holder.
    fn bit_lines(&self, position: u32, word: u32) -> Vec<String> {
        let value = self.value(word);
        let line = |page: u32| {
            let bit = value >> (page % 16) & 1;
            let holder = self.disk.holder_words(&self.held.first(page));
            item(&format!("bit {}", page % 16), &format!("{bit}  page {page}, {holder}"))
        };
        self.disk.told_by(position, word).map(line).collect()
    }
}

/// "68 79, characters DO".
fn bytes(value: u16) -> String {
    let [high, low] = value.to_be_bytes();
    format!("{high} {low}, characters {}", characters(value))
}

/// Which bits are set, from the left.
fn set(value: u16) -> String {
    let bits: Vec<String> = (0..16)
        .rev()
        .filter(|bit| value >> bit & 1 == 1)
        .map(|bit| bit.to_string())
        .collect();
    match bits.is_empty() {
        true => "none set".to_string(),
        false => format!("set {}", bits.join(" ")),
    }
}
