//! Where an image is broken, for programs.

use super::Broken;
use crate::answers;
use crate::volume::number;
use crate::volume_json::Holder;
use serde::Serialize;

/// All numbers, and the words.
#[derive(Serialize)]
pub struct Told {
    rule: u32,
    sentence: &'static str,
    page: u32,
    word: u32,
    what: String,
    there: There,
    expected: Expected,
    first: Holder,
    second: Holder,
}

/// What stands at the place.
#[derive(Serialize)]
struct There {
    words: Vec<u16>,
    octal: Vec<String>,
    #[serde(skip_serializing_if = "Option::is_none")]
    number: Option<u32>,
    #[serde(skip_serializing_if = "Option::is_none")]
    says: Option<String>,
    #[serde(skip_serializing_if = "Option::is_none")]
    leftovers: Option<String>,
}

/// What was expected there: in words, and as a range of numbers where it is one.
#[derive(Serialize)]
struct Expected {
    words: Option<String>,
    #[serde(skip_serializing_if = "Option::is_none")]
    from: Option<u32>,
    #[serde(skip_serializing_if = "Option::is_none")]
    to: Option<u32>,
}

impl Broken<'_> {
    /// All that can be told of the place.
    pub fn told(&self) -> Told {
        Told {
            rule: self.rule,
            sentence: answers::rule(self.rule),
            page: self.place.page,
            word: self.place.word,
            what: self.what(),
            there: self.told_there(),
            expected: self.told_expected(),
            first: Holder::named(&self.disk, &self.holders[0]),
            second: Holder::named(&self.disk, &self.holders[1]),
        }
    }

    fn told_there(&self) -> There {
        let (words, meaning) = (self.words(), self.told.as_ref().map(|(meaning, _)| meaning));
        There {
            words: words.to_vec(),
            octal: words.iter().map(|word| format!("{word:06o}")).collect(),
            number: (words.len() <= 2).then(|| number(words)),
            says: meaning.map(|meaning| meaning.says.clone()),
            leftovers: meaning.and_then(|meaning| meaning.leftovers.clone()),
        }
    }

    fn told_expected(&self) -> Expected {
        let range = self.told.as_ref().and_then(|(_, expected)| expected.range);
        Expected {
            words: self.expected(),
            from: range.map(|(from, _)| from),
            to: range.map(|(_, to)| to),
        }
    }
}
