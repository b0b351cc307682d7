//! A page for people: a line for each word, runs of equal words that say nothing folded.

use super::{characters, Page, WORDS};
use crate::answers::{broken_at, item};
use crate::volume::Meaning;

impl Page<'_> {
    pub fn text(&self) -> String {
        let mut lines = vec![format!("page {} of {}", self.number, self.disk.pages())];
        lines.extend(self.head());
        lines.push("  word (octal)   octal  decimal      what it is".to_string());
        let mut next = 0;
        while next < WORDS {
            lines.extend(self.lines(next));
            let end = self.run(next);
            if end > next + 1 {
                lines.push(format!("     *  the same to word {}", end - 1));
            }
            next = end;
        }
        lines.iter().map(|line| format!("{}\n", line.trim_end())).collect()
    }

    /// Who holds the page, its bit, and where the image is broken.
    pub fn head(&self) -> Vec<String> {
        let mut lines: Vec<String> = self
            .holders()
            .iter()
            .map(|holder| item("held as", &self.disk.holder_words(holder)))
            .collect();
        match lines.len() {
            0 => lines.push(item("held as", "nothing: the page is free")),
            _ if self.held.more(self.number) => lines.push(item("held as", "more than these two")),
            _ => {}
        }
        lines.push(item("its bit", &self.bit_words()));
        if let Some(broken) = &self.broken {
            lines.push(item("broken", &broken_at(broken.rule, broken.place)));
        }
        lines
    }

    /// The page's bit; of a bit file of several pages also where it stands.
    fn bit_words(&self) -> String {
        let words = match self.disk.bit(self.number) {
            Some(true) => "set: the page is reserved",
            Some(false) => "clear: the page is not reserved",
            None => "not to be found: the bit file pointer is wrong",
        };
        match self.disk.bit_place(self.number) {
            Some(place) if self.disk.bit_pages() > 1 => {
                format!("{words} (bit {} of word {} of page {})", self.number % 16, place.word, place.page)
            }
            _ => words.to_string(),
        }
    }

    /// A word's line, and the one under it where it is the broken one.
    fn lines(&self, word: u32) -> Vec<String> {
        let value = self.value(word);
        let broken = self.broken_at(word);
        let mark = if broken.is_some() { '>' } else { ' ' };
        let octal = format!("({word:o})");
        let (shown, what) = (characters(value), self.what(word));
        let mut lines = vec![format!("{mark} {word:>4} {octal:<7}  {value:06o}  {value:>7}  {shown}  {what}")];
        if let Some(broken) = broken {
            let expected = broken.expected().unwrap_or_default();
            lines.push(format!(
                "> rule {} is broken here: {}; expected: {expected}",
                broken.rule,
                broken.what()
            ));
        }
        lines
    }

    /// What a word is beside its neighbours; of words that are one thing the first says it.
    fn what(&self, word: u32) -> String {
        let told = self.meanings(word).into_iter().filter(|meaning| meaning.first == word).map(beside);
        told.filter(|words| !words.is_empty()).collect::<Vec<_>>().join(" | ")
    }

    /// The end of the run of words that are as this one and say nothing more.
    fn run(&self, word: u32) -> u32 {
        let folds = |other: u32| {
            let blank = self.meanings(other).iter().all(|meaning| meaning.blank);
            blank && self.broken_at(other).is_none() && self.value(other) == self.value(word)
        };
        if !folds(word) {
            return word + 1;
        }
        (word + 1..WORDS).find(|other| !folds(*other)).unwrap_or(WORDS)
    }
}

/// "given pages: 100", "name: DOCK".
fn beside(meaning: Meaning) -> String {
    match meaning.says.is_empty() {
        true => meaning.short,
        false => format!("{}: {}", meaning.short, meaning.told()),
    }
}
