//! A page for programs.

use super::{characters, Page, WORDS};
use crate::broken::Told;
use crate::volume::Meaning;
use crate::volume_json::Holder;
use serde::Serialize;

/// A page: who holds it, its bit, where the image is broken, and its words.
#[derive(Serialize)]
pub struct Shown {
    page: u32,
    pages: u32,
    holders: Vec<Holder>,
    more_holders: bool,
    reserved: Option<bool>,
    sound: bool,
    broken: Option<Told>,
    words: Vec<Word>,
}

/// A word of the page, with what it is to each holder; one that is shown by itself has its characters and bits too.
#[derive(Serialize)]
struct Word {
    word: u32,
    value: u16,
    octal: String,
    is: Vec<Is>,
    broken: bool,
    #[serde(skip_serializing_if = "Option::is_none")]
    characters: Option<String>,
    #[serde(skip_serializing_if = "Option::is_none")]
    bits: Option<Vec<u32>>,
}

/// What a word is, with what is left behind a name where there is something.
#[derive(Serialize)]
struct Is {
    what: String,
    says: String,
    first: u32,
    words: u32,
    #[serde(skip_serializing_if = "Option::is_none")]
    leftovers: Option<String>,
}

impl From<&Meaning> for Is {
    fn from(meaning: &Meaning) -> Is {
        Is {
            what: meaning.what.clone(),
            says: meaning.says.clone(),
            first: meaning.first,
            words: meaning.words,
            leftovers: meaning.leftovers.clone(),
        }
    }
}

impl Page<'_> {
    /// The page with all its words.
    pub fn shown(&self) -> Shown {
        self.with((0..WORDS).map(|word| self.word(word)).collect())
    }

    /// The page with one word, its characters and its bits.
    pub fn word_shown(&self, word: u32) -> Shown {
        let value = self.value(word);
        let shown = Word {
            characters: Some(characters(value)),
            bits: Some((0..16).filter(|bit| value >> bit & 1 == 1).collect()),
            ..self.word(word)
        };
        self.with(vec![shown])
    }

    /// The page with these words.
    fn with(&self, words: Vec<Word>) -> Shown {
        let named = |holder: &_| Holder::named(&self.disk, holder);
        Shown {
            page: self.number,
            pages: self.disk.pages(),
            holders: self.holders().iter().map(named).collect(),
            more_holders: self.held.more(self.number),
            reserved: self.disk.bit(self.number),
            sound: self.broken.is_none(),
            broken: self.broken.as_ref().map(|broken| broken.told()),
            words,
        }
    }

    fn word(&self, word: u32) -> Word {
        let value = self.value(word);
        Word {
            word,
            value,
            octal: format!("{value:06o}"),
            is: self.meanings(word).iter().map(Is::from).collect(),
            broken: self.broken_at(word).is_some(),
            characters: None,
            bits: None,
        }
    }
}
