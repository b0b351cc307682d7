//! Where an image breaks a rule, in words and for programs: the rule's sentence, the place, what stands there, what was expected. The proved
//! library says which rule and which place; the words are made here, from the words of the image around the place.

mod asked;
mod bits;
mod blocks;
mod entries;
mod names;
mod shapes;
mod told;

pub use asked::Expected;
pub use told::Told;

use crate::answers::{self, item, Refusal};
use crate::volume::{meaning, Disk, Holder, Kind, Meaning};
use proved::{Place, Reply};
use std::path::Path;

/// The first place of the lowest broken rule.
pub struct Broken<'a> {
    disk: Disk<'a>,
    pub rule: u32,
    pub place: Place,
    /// With rule 8 the page's first two holders.
    holders: [Holder; 2],
    /// What the words at the place are, and what the rule asks of them.
    told: Option<(Meaning, Expected)>,
}

impl Broken<'_> {
    /// What the library has refused with number 3.
    pub fn of(image: &[u16], reply: Reply) -> Broken<'_> {
        let disk = Disk::new(image);
        let Reply { rule, place, .. } = reply;
        let told =
            asked::asked(image, rule, place).and_then(|asked| Some((meaning(&disk, &asked.of, place.page, place.word)?, asked.expected)));
        Broken {
            disk,
            rule,
            place,
            holders: [reply.first.into(), reply.second.into()],
            told,
        }
    }

    /// The lines under the refusal itself.
    pub fn lines(&self, path: &Path) -> Vec<String> {
        let mut lines = vec![
            item(&format!("rule {}", self.rule), answers::rule(self.rule)),
            item("place", &self.what()),
        ];
        lines.extend(
            self.holders_told()
                .iter()
                .map(|(which, holder)| item(which, &self.disk.holder_words(holder))),
        );
        if self.rule != 8 {
            lines.push(item("there", &self.there()));
        }
        lines.extend(self.expected().map(|expected| item("expected", &expected)));
        lines.push(answers::look_at(path, self.place));
        lines
    }

    /// Number 3 with all that can be told of the place.
    pub fn tell(&self, refusal: Refusal, path: &Path) -> Refusal {
        refusal.over(self.lines(path)).detailed(self.told())
    }

    /// What the place is: "used pages of user 0 DOCK, words 16-17 of his entry".
    pub fn what(&self) -> String {
        match (&self.told, self.rule) {
            (_, 8) => format!("page {} as a whole", self.place.page),
            (Some((meaning, _)), _) => meaning.what.clone(),
            (None, _) => format!("word {} of page {}", self.place.word, self.place.page),
        }
    }

    /// What was expected there; one number as the manual has it too.
    pub fn expected(&self) -> Option<String> {
        if self.rule == 8 {
            return Some("one holder, or none".to_string());
        }
        let (meaning, expected) = self.told.as_ref()?;
        match expected.range {
            Some((from, to)) if from == to && to > 0 => Some(format!("{} (octal {})", expected.words, octal_number(to, meaning.words))),
            _ => Some(expected.words.clone()),
        }
    }

    /// The words from the place on that are one thing.
    fn words(&self) -> &[u16] {
        let count = self.told.as_ref().map_or(1, |(meaning, _)| meaning.words);
        self.disk.words(self.place.page, self.place.word, count)
    }

    /// What stands there, as the manual has it, as decimal numbers, and what it says.
    fn there(&self) -> String {
        let words = self.words();
        let shown = match words.len() {
            0..=2 => words,
            _ => &words[..words.iter().rposition(|word| *word != 0).map_or(1, |last| last + 1)],
        };
        let fill = if shown.len() < words.len() { ", then zeros" } else { "" };
        let decimal = shown.iter().map(u16::to_string).collect::<Vec<_>>().join(" ");
        let says = self
            .told
            .as_ref()
            .map(|(meaning, _)| meaning.told())
            .filter(|says| *says != decimal);
        let says = says.map(|says| format!(": {says}")).unwrap_or_default();
        format!("octal {}, decimal {decimal}{fill}{says}", octal(shown))
    }

    fn holders_told(&self) -> Vec<(&'static str, Holder)> {
        let both = ["first", "second"].into_iter().zip(self.holders);
        both.filter(|(_, holder)| holder.kind != Kind::Free).collect()
    }
}

/// Words as the manual has them.
pub fn octal(words: &[u16]) -> String {
    words.iter().map(|word| format!("{word:06o}")).collect::<Vec<_>>().join(" ")
}

/// A number of one word or two, as the manual has its words.
fn octal_number(number: u32, words: u32) -> String {
    let both = [(number >> 16) as u16, number as u16];
    octal(if words == 1 { &both[1..] } else { &both })
}
