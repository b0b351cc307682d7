//! What a command says: the answer of a call that was done, and the library's refusals in words.

use crate::limits::{most_pages, pages_to_a_bit_page};
use crate::volume;
use crate::volume_json::Holder;
use proved::{Place, Reply};
use serde::Serialize;
use serde_json::{Map, Value};
use std::fmt::Display;
use std::path::Path;

/// An answer for people and the same one for programs.
#[derive(Debug, Default)]
pub struct Answer {
    pub text: String,
    /// An object in a line; a script has one for each of its lines.
    pub json: Vec<Map<String, Value>>,
    /// What is said on standard error.
    pub warnings: Vec<String>,
    pub status: u8,
}

impl Answer {
    /// One line, and the same for programs with number 0.
    pub fn new(line: impl Display, answer: impl Serialize) -> Answer {
        Answer::of(format!("{line}\n"), answer)
    }

    /// Lines that end each in a newline, and the same for programs.
    pub fn of(text: String, answer: impl Serialize) -> Answer {
        let mut json = fields(answer);
        json.insert("number".to_string(), 0.into());
        Answer {
            text,
            json: vec![json],
            ..Answer::default()
        }
    }

    /// Text that is no answer about an image.
    pub fn plain(text: String) -> Answer {
        Answer { text, ..Answer::default() }
    }

    pub fn print(&self, json: bool) -> String {
        match json {
            true => self.json.iter().map(|line| format!("{}\n", Value::from(line.clone()))).collect(),
            false => self.text.clone(),
        }
    }
}

/// What a type has to say to programs, field by field.
pub fn fields(answer: impl Serialize) -> Map<String, Value> {
    match serde_json::to_value(answer) {
        Ok(Value::Object(fields)) => fields,
        _ => Map::new(),
    }
}

/// A line under what is said, with a name before it.
pub fn item(name: &str, words: &str) -> String {
    format!("  {name:<10}{words}")
}

/// The line that says how the words of a place are shown.
pub fn look_at(path: &Path, Place { page, word }: Place) -> String {
    item("look at", &format!("nord page {} {page} {word}", path.display()))
}

/// So many pages, in words.
pub fn pages(count: u32) -> String {
    match count {
        1 => "1 page".to_string(),
        _ => format!("{count} pages"),
    }
}

/// The library's calls, as far as a refusal of each is said in other words.
#[derive(Clone, Copy, Debug, PartialEq, Eq)]
pub enum Call {
    Check,
    FindUser,
    FindFile,
    Address,
    Who,
    Page,
    Format,
    /// Format with a legal name: what can be wrong then is where the bit file begins.
    FormatAt,
    AddUser,
    DeleteUser,
    Give,
    Take,
    CreateIndexed,
    CreateContiguous,
    Grow,
    Shrink,
    /// Growing or shrinking to the size of what is written.
    Fit,
    DeleteFile,
    Write,
    Open,
    ToApostrophe,
    ToZeros,
    Salvage,
}

impl Call {
    /// Whether the call takes a name, and is refused with the name as its subject.
    fn names(self) -> bool {
        matches!(
            self,
            Call::FindUser | Call::FindFile | Call::Format | Call::AddUser | Call::CreateIndexed | Call::CreateContiguous
        )
    }
}

/// A refusal: its number, with 3 the lowest broken rule and its place, and all that in words.
#[derive(Debug, PartialEq, Eq)]
pub struct Refusal {
    pub number: u32,
    pub words: String,
    /// The lowest broken rule with 3, else 0.
    pub rule: u32,
    /// Lines under the words.
    pub more: Vec<String>,
    /// What else programs are told.
    pub details: Map<String, Value>,
}

impl Refusal {
    /// The refusal of a call about `subject`, the thing as the user named it.
    pub fn of(reply: Reply, call: Call, subject: impl Display) -> Refusal {
        match reply.number {
            3 => unsound(reply),
            1 => plain(1, why(1, call).to_string()),
            2 if call.names() => misspelled(format!("{}: {subject}", why(2, call)), &subject.to_string()),
            number => plain(number, format!("{}: {subject}", why(number, call))),
        }
    }

    /// A length that cannot be handed to the library: odd, or above its largest image.
    pub fn length(bytes: u64) -> Refusal {
        plain(1, LENGTH.to_string()).sized(bytes)
    }

    /// Number 1 with the length.
    pub fn sized(self, bytes: u64) -> Refusal {
        let (pages, over) = (bytes / 2048, bytes % 2048);
        let size = match over {
            0 => format!("{bytes} bytes, {pages} pages"),
            _ => format!("{bytes} bytes, {pages} pages and {over} bytes over"),
        };
        self.with(format!("the image has {size}")).detailed(Length { bytes })
    }

    /// The same refusal, with more said. Number 3 speaks of the image alone.
    pub fn with(mut self, more: impl Display) -> Refusal {
        if self.number != 3 {
            self.words = format!("{} ({more})", self.words);
        }
        self
    }

    /// The same refusal, with more for programs.
    pub fn detailed(mut self, more: impl Serialize) -> Refusal {
        self.details.extend(fields(more));
        self
    }

    /// The same refusal with one line more under its words.
    pub fn also(mut self, line: String) -> Refusal {
        self.more.push(line);
        self
    }

    /// The same refusal with other lines under its words.
    pub fn over(mut self, more: Vec<String>) -> Refusal {
        self.more = more;
        self
    }
}

/// A refusal that tells no rule.
pub fn plain(number: u32, words: String) -> Refusal {
    Refusal {
        number,
        words,
        rule: 0,
        more: Vec::new(),
        details: Map::new(),
    }
}

/// Number 2 of a call that takes a name, with what is wrong in the name where that is easily done.
fn misspelled(words: String, name: &str) -> Refusal {
    let refusal = plain(2, words);
    match name {
        _ if name.contains('\'') => refusal.with("an apostrophe ends a short name in an image and is no part of it"),
        _ if name.bytes().any(|byte| byte.is_ascii_lowercase()) => refusal.with("names are in capitals"),
        _ => refusal,
    }
}

/// Number 3: the rule and its place. `nord check` tells the rest.
fn unsound(reply: Reply) -> Refusal {
    let Reply { number, rule, place, .. } = reply;
    Refusal {
        number,
        words: broken_at(rule, place),
        rule,
        more: vec![format!("  rule {rule}: {} nord check tells more", self::rule(rule))],
        details: fields(Unsound {
            sentence: self::rule(rule),
            page: place.page,
            word: place.word,
            first: told(reply.first),
            second: told(reply.second),
        }),
    }
}

/// A holder for programs.
fn told(holder: proved::Holder) -> Holder {
    (&volume::Holder::from(holder)).into()
}

/// Where the lowest broken rule is broken, with rule 8 by whom.
#[derive(Serialize)]
struct Unsound {
    sentence: &'static str,
    page: u32,
    word: u32,
    first: Holder,
    second: Holder,
}

/// How long an image is.
#[derive(Serialize)]
struct Length {
    bytes: u64,
}

/// Which rule an image breaks, and where.
pub fn broken_at(rule: u32, Place { page, word }: Place) -> String {
    format!("the image is unsound: rule {rule} is broken at page {page}, word {word}")
}

/// The value of a call that was done, or its refusal.
pub fn done(reply: Reply, call: Call, subject: impl Display) -> Result<u32, Refusal> {
    match reply.number {
        0 => Ok(reply.value),
        _ => Err(Refusal::of(reply, call, subject)),
    }
}

const LENGTH: &str = concat!(
    "the length is no whole number of pages of 2,048 bytes, or there are fewer than 8 or more than ",
    most_pages!(),
    " pages"
);

/// A refusal's reason. A number that has several reasons in document 01 has here the one that the call can meet.
fn why(number: u32, call: Call) -> &'static str {
    match number {
        1 => LENGTH,
        2 => wrong_argument(call),
        4 => absent(call),
        5 => "the name is taken",
        6 => match call {
            Call::Shrink => "the file is of the wrong kind: a contiguous file does not shrink, nor does an empty one",
            Call::Fit => "the file is of the wrong kind: a contiguous file keeps its page count",
            _ => "the file is of the wrong kind: a contiguous file does not grow",
        },
        7 => "the user has a file",
        8 => "all 256 entries are used",
        9 => match call {
            Call::Take => "given less used is below the pages to be taken back",
            _ => "given less used is below the pages needed",
        },
        10 => match call {
            Call::Give => "unreserved is below the pages to be given",
            _ => "unreserved is below the system pages needed",
        },
        11 => "there is no run of that many free pages for a contiguous file",
        12 => match call {
            Call::ToZeros => "one apostrophe and then zeros are wanted behind every short name and type",
            _ => "zeros alone are wanted behind every short name and type",
        },
        13 => "a user holds more than he was given, or unreserved would be below zero",
        14 => "the list is too short for the words that change",
        _ => "no reason is known for this number",
    }
}

/// Number 2: what is right for the arguments of a call.
fn wrong_argument(call: Call) -> &'static str {
    match call {
        Call::FindUser | Call::AddUser | Call::Format => "an argument is wrong (a name is 1 to 16 of A-Z, 0-9 and hyphen)",
        Call::FormatAt => concat!(
            "an argument is wrong (the bit file, a page for each ",
            pages_to_a_bit_page!(),
            " pages or less, begins at page 1 or above and ends below the number of pages)"
        ),
        Call::FindFile | Call::CreateIndexed => {
            "an argument is wrong (a name is 1 to 16 of A-Z, 0-9 and hyphen, a type 0 to 4 of them; a user's index is at most 255)"
        }
        Call::CreateContiguous => concat!(
            "an argument is wrong (a name is 1 to 16 of A-Z, 0-9 and hyphen, a type 0 to 4 of them; a user's index is at most 255; a file has 1 to ",
            most_pages!(),
            " pages)"
        ),
        Call::Who => "an argument is wrong (a page's number is below the number of pages)",
        Call::Page => "an argument is wrong (a page's number is below the number of pages, a word's at most 1,023)",
        Call::Give | Call::Take => concat!(
            "an argument is wrong (a user's index is at most 255, a page count is 1 to ",
            most_pages!(),
            ")"
        ),
        _ => "an argument is wrong (an index is at most 255)",
    }
}

/// Number 4: what is not there.
fn absent(call: Call) -> &'static str {
    match call {
        Call::FindFile => "there is no such file",
        Call::Address | Call::Write => "there is no such file, or it has no such page position",
        Call::FindUser | Call::DeleteUser | Call::Give | Call::Take | Call::CreateIndexed | Call::CreateContiguous => {
            "there is no such user"
        }
        _ => "there is no such file",
    }
}

/// The ten rules in document 01's own words; rule 1 with the bit pages of document 02's T-06.
pub fn rule(number: u32) -> &'static str {
    match number {
        1 => "Legal volume name; bit pointer without flags, all bit pages in 1..P-1.",
        2 => "User pointer zero, or indexed to 1..P-1. Object pointer zero exactly when the user pointer is, else indexed or subindexed to 1..P-1.",
        3 => "User index: each of slots 0..7 zero or in 1..P-1, others zero.",
        4 => "Used users: own index right, name legal, no two names equal, used <= given.",
        5 => "Object blocks: allowed slots zero or in 1..P-1, others zero; if indexed, no used user above 63. Empty object pages are allowed.",
        6 => "Used objects: owner is used, words 16 and 17 right, name and type legal, no two of a user equal.",
        7 => "Each file has one of the shapes above, its bytes right, all pages in 1..P-1.",
        8 => "No page has two holders.",
        9 => "A bit is set exactly when its page has a holder.",
        10 => {
            "Each used count is the data, index and subindex pages of his files, and unreserved + given of all used users + system pages = P, \
             added as whole numbers that never wrap."
        }
        _ => "There is no such rule.",
    }
}
