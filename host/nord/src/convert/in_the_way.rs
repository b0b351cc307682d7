//! What is in the way of a conversion: the first name or type that is not in the fill which is converted from, and how many are not.

use crate::answers::{item, look_at, Call, Refusal};
use crate::args::Ending;
use crate::volume::{Disk, Fill, Short, Whose};
use proved::{Place, Reply};
use serde::Serialize;
use std::path::Path;

/// The first that is in the way, and how many short names and types there are of each fill.
pub struct InTheWay<'a> {
    disk: Disk<'a>,
    to: Ending,
    first: Short,
    zeros: usize,
    apostrophes: usize,
    leftovers: usize,
}

impl InTheWay<'_> {
    /// In an image that a conversion was refused on with 12.
    pub fn of(image: &[u16], to: Ending) -> Option<InTheWay<'_>> {
        let disk = Disk::new(image);
        let shorts = disk.shorts();
        let count = |fill: Fill| shorts.iter().filter(|short| short.fill == fill).count();
        Some(InTheWay {
            disk,
            to,
            first: shorts.iter().find(|short| short.fill != to.starts_from())?.clone(),
            zeros: count(Fill::Zeros),
            apostrophes: count(Fill::Apostrophe),
            leftovers: count(Fill::Leftovers),
        })
    }

    pub fn refusal(&self, reply: Reply, call: Call, path: &Path) -> Refusal {
        let refusal = Refusal::of(reply, call, self.subject());
        refusal.over(self.lines(path)).detailed(self.told())
    }

    /// "the name of user 1 FLOCK ends in an apostrophe".
    fn subject(&self) -> String {
        let whose = self.disk.whose_words(self.first.whose);
        match self.first.fill {
            Fill::Apostrophe => format!("{whose} ends in an apostrophe"),
            Fill::Zeros => format!("{whose} has zeros alone behind it"),
            Fill::Leftovers => format!("{whose} has leftovers behind it"),
        }
    }

    /// How many short names and types there are.
    fn short(&self) -> usize {
        self.zeros + self.apostrophes + self.leftovers
    }

    /// How many of them are in the way.
    pub fn count(&self) -> usize {
        match self.to {
            Ending::Apostrophe => self.apostrophes + self.leftovers,
            Ending::Zeros => self.zeros + self.leftovers,
        }
    }

    fn lines(&self, path: &Path) -> Vec<String> {
        let (count, short) = (self.count(), self.short());
        let are = if count == 1 { "is" } else { "are" };
        vec![
            item("there", &self.there()),
            item("in all", &format!("{count} of {short} short names and types {are} in the way")),
            item("hint", &self.hint()),
            look_at(path, self.disk.name_place(self.first.whose)),
        ]
    }

    /// The bytes behind the name, each in hexadecimal.
    fn behind(&self) -> Vec<String> {
        let bytes = self.first.stored.behind().iter();
        bytes.map(|byte| format!("{byte:02X}")).collect()
    }

    /// These bytes, and what of them is left over.
    fn there(&self) -> String {
        let hexadecimal = format!("hexadecimal {}", self.behind().join(" "));
        match self.first.stored.leftovers() {
            Some(leftovers) => format!("{hexadecimal}: leftovers {leftovers}"),
            None => hexadecimal,
        }
    }

    /// What that means for the volume.
    fn hint(&self) -> String {
        let InTheWay {
            zeros,
            apostrophes,
            leftovers,
            ..
        } = self;
        match self.to {
            _ if *leftovers > 0 => format!("leftovers stand behind {leftovers} of them: such a volume is converted neither way"),
            _ if self.count() < self.short() => format!(
                "an apostrophe stands behind {apostrophes} of them, zeros alone behind {zeros}: a volume with both is converted neither way"
            ),
            Ending::Apostrophe => "every short name and type ends in an apostrophe already: there is nothing to convert".to_string(),
            Ending::Zeros => "every short name and type has zeros alone behind it already: there is nothing to convert".to_string(),
        }
    }

    /// All that is said here, for programs.
    fn told(&self) -> Told {
        let Short { whose, stored, fill } = &self.first;
        let (field, user, file) = match *whose {
            Whose::Volume => ("volume", None, None),
            Whose::User(user) => ("user", Some(user), None),
            Whose::File(user, file) => ("name", Some(user), Some(file)),
            Whose::Type(user, file) => ("type", Some(user), Some(file)),
        };
        let Place { page, word } = self.disk.name_place(*whose);
        Told {
            to: self.to.word(),
            field,
            user,
            file,
            name: stored.to_string(),
            fill: super::word(*fill),
            behind: self.behind().concat(),
            leftovers: stored.leftovers(),
            page,
            word,
            in_the_way: self.count(),
            short: Fills {
                zeros: self.zeros,
                apostrophe: self.apostrophes,
                leftovers: self.leftovers,
            },
        }
    }
}

/// The first name or type that is in the way, and how many are.
#[derive(Serialize)]
struct Told {
    to: &'static str,
    field: &'static str,
    user: Option<u32>,
    file: Option<u32>,
    name: String,
    fill: &'static str,
    behind: String,
    leftovers: Option<String>,
    page: u32,
    word: u32,
    in_the_way: usize,
    short: Fills,
}

/// Short names and types of each fill.
#[derive(Serialize)]
struct Fills {
    zeros: usize,
    apostrophe: usize,
    leftovers: usize,
}
