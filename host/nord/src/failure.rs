//! What can go wrong, and the exit status of each: a refusal's own number 1 to 14, or one of the statuses below for what the host did.

use crate::answers::{fields, Refusal};
use serde::Serialize;
use serde_json::{Map, Value};
use std::io;
use std::path::Path;

/// The command was not used as its help says.
pub const USAGE: u8 = 64;
/// The host's files: unreadable, full, gone.
pub const INPUT_OUTPUT: u8 = 74;
/// Another writer has the image, or it was changed under our hands: the same command can work later.
pub const TRY_AGAIN: u8 = 75;

#[derive(Debug)]
pub enum Failure {
    /// The library's refusal.
    Refused(Refusal),
    /// A use that the arguments' definition cannot tell.
    Usage(String),
    /// Input or output.
    Host(String),
    /// Locked or changed by somebody else.
    Busy(String),
    /// Nobody reads the bytes of a file any more.
    Unread,
    /// A line of a script failed.
    Line(Line, Box<Failure>),
}

/// A line of a script: where it comes from, its number from 1 on, and its text.
#[derive(Clone, Debug, Serialize)]
pub struct Line {
    #[serde(skip)]
    pub script: String,
    pub line: usize,
    pub text: String,
}

impl Failure {
    pub fn status(&self) -> u8 {
        match self {
            Failure::Refused(refusal) => refusal.number as u8,
            Failure::Usage(_) => USAGE,
            Failure::Host(_) | Failure::Unread => INPUT_OUTPUT,
            Failure::Busy(_) => TRY_AGAIN,
            Failure::Line(_, failure) => failure.status(),
        }
    }

    /// One line for people, and more under it where there is more to tell; empty where there is nobody to tell.
    pub fn words(&self) -> String {
        match self {
            Failure::Refused(refusal) => {
                let first = format!("refused ({}): {}", refusal.number, refusal.words);
                [&[first][..], &refusal.more].concat().join("\n")
            }
            Failure::Usage(words) | Failure::Host(words) | Failure::Busy(words) => words.clone(),
            Failure::Unread => String::new(),
            Failure::Line(line, failure) => format!("{} line {}: {}: {}", line.script, line.line, line.text, failure.words()),
        }
    }

    /// Number 1 says how long the image is.
    pub fn sized(self, words: usize) -> Failure {
        match self {
            Failure::Refused(refusal) if refusal.number == 1 => refusal.sized(2 * words as u64).into(),
            Failure::Line(line, failure) => Failure::Line(line, Box::new(failure.sized(words))),
            _ => self,
        }
    }

    /// The same for programs, in one shape for all that can go wrong.
    pub fn told(&self) -> Failed {
        let (rule, error, details) = match self {
            Failure::Refused(refusal) => (refusal.rule, refusal.words.clone(), refusal.details.clone()),
            Failure::Line(line, failure) => {
                let Failed {
                    rule, error, mut details, ..
                } = failure.told();
                details.extend(fields(line));
                (rule, error, details)
            }
            _ => (0, self.words(), Map::new()),
        };
        let number = self.status();
        Failed {
            number,
            rule,
            error,
            details,
        }
    }
}

/// What went wrong: the exit status, with 3 the lowest broken rule and else 0, the sentence, and what else is known.
#[derive(Debug, Serialize)]
pub struct Failed {
    number: u8,
    rule: u32,
    error: String,
    #[serde(flatten)]
    details: Map<String, Value>,
}

impl Failed {
    /// One line.
    pub fn line(&self) -> String {
        format!("{}\n", Value::from(fields(self)))
    }
}

impl From<Refusal> for Failure {
    fn from(refusal: Refusal) -> Failure {
        Failure::Refused(refusal)
    }
}

/// An error of the host about a file, with the file's name before it.
pub fn of_file(path: &Path) -> impl Fn(io::Error) -> Failure + '_ {
    move |error| Failure::Host(format!("{}: {error}", path.display()))
}

/// An error while the bytes of a file go to standard output.
pub fn standard_output(error: io::Error) -> Failure {
    match error.kind() {
        io::ErrorKind::BrokenPipe => Failure::Unread,
        _ => Failure::Host(format!("standard output: {error}")),
    }
}
