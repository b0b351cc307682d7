//! What is doubtful: which rule is broken, where, and in short words.

use proved::Place;

/// Something that breaks a rule.
#[derive(Clone, Debug, PartialEq, Eq)]
pub struct Doubt {
    pub rule: u32,
    pub place: Place,
    /// "owner 7 is not used".
    pub words: String,
    /// The position in its file, where one page of a file is doubtful.
    pub position: Option<u32>,
}

impl Doubt {
    pub fn new(rule: u32, page: u32, word: u32, words: impl Into<String>) -> Doubt {
        Doubt {
            rule,
            place: Place { page, word },
            words: words.into(),
            position: None,
        }
    }

    /// The same of the page at a position.
    pub fn at(self, position: u32) -> Doubt {
        Doubt {
            position: Some(position),
            ..self
        }
    }

    /// "rule 7 at page 6, word 24: pointer 70000 is no page of 154".
    pub fn with_place(&self) -> String {
        let Place { page, word } = self.place;
        format!("rule {} at page {page}, word {word}: {}", self.rule, self.words)
    }
}

/// The words of all doubts.
pub fn words(doubts: &[Doubt]) -> Vec<String> {
    doubts.iter().map(|doubt| doubt.words.clone()).collect()
}

/// Doubts of one sort: the first is told, and how many there are.
#[derive(Default)]
pub struct Tally {
    first: Option<Doubt>,
    count: u32,
}

impl Tally {
    /// Counts so many more, of which this is the first.
    pub fn add(&mut self, count: u32, doubt: impl FnOnce() -> Doubt) {
        if count > 0 && self.first.is_none() {
            self.first = Some(doubt());
        }
        self.count += count;
    }

    /// "bit of page 40 clear, and 2 more".
    pub fn told(self) -> Option<Doubt> {
        let more = self.count.saturating_sub(1);
        self.first.map(|first| match more {
            0 => first,
            _ => Doubt {
                words: format!("{}, and {more} more", first.words),
                ..first
            },
        })
    }
}
