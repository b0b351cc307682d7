//! A list of calls in the making. The library makes all of them after one check (`proved::run`), so an index that one call gives and a later one
//! takes has to be known before: names are looked up in a forecast of the volume, and the library is asked for the same name in the list. What it
//! answers has to be what the forecast says; else nothing of the list is kept.

mod forecast;
mod made;
mod needed;
mod refused;

pub use forecast::Forecast;
pub use made::{make, unforeseen, Made, Stopped};

use crate::answers::{Answer, Call};
use crate::chunks;
use crate::failure::Failure;
use crate::names::{FileName, UserName, Within};
use proved::{call, Step, MOST_PAGES};
use std::ops::Range;
use std::path::{Path, PathBuf};

/// A file by its user's index and its own.
pub type Place = (u32, u32);

/// What is said of calls once they are made.
pub type Tell = Box<dyn FnOnce(&Made) -> Answer>;

/// The calls of one command are planned: what is said of them, or nothing, where the library has to refuse the last of them.
pub type Planned = Result<Option<Tell>, Failure>;

/// The calls so far.
pub struct Plan {
    pub forecast: Forecast,
    /// Whether what is said of a call is seen in the image right after it.
    pub seen: bool,
    path: PathBuf,
    pages: u32,
    steps: Vec<Step>,
    text: Vec<u8>,
    data: Vec<u16>,
    groups: Vec<Group>,
}

/// Calls in a row that are alike, and what a refusal of one of them says.
struct Group {
    call: Call,
    subject: String,
    each: Each,
    steps: Range<usize>,
    /// The value that the forecast says.
    value: Option<u32>,
}

/// What is said of one call among several that are alike.
#[derive(Clone, Debug, PartialEq, Eq)]
pub enum Each {
    /// There is one.
    Only,
    /// There is one, for so many pages as the user has typed them.
    Of(String),
    /// Each is for a page more or less: "page 3 of 8 to grow by".
    PageOf(String),
    /// Each is for a position of a file.
    Position,
}

impl Plan {
    /// For an image of any words; where the library finds it unsound, the first call says so.
    pub fn on(image: &[u16], path: &Path) -> Plan {
        Plan {
            forecast: Forecast::of(image),
            seen: false,
            path: path.to_path_buf(),
            pages: (image.len() / proved::PAGE) as u32,
            steps: Vec::new(),
            text: Vec::new(),
            data: Vec::new(),
            groups: Vec::new(),
        }
    }

    /// How many calls there are.
    pub fn len(&self) -> usize {
        self.steps.len()
    }

    pub fn is_empty(&self) -> bool {
        self.steps.is_empty()
    }

    /// The pages of the image.
    pub fn pages(&self) -> u32 {
        self.pages
    }

    /// Forgets the calls from this one on, which are not to be made.
    pub fn forget(&mut self, first: usize) {
        self.steps.truncate(first);
        self.groups.retain(|group| group.steps.end <= first);
    }

    /// One call more. The value is what the forecast says that it gives, if that is known.
    pub fn call(&mut self, call: Call, subject: impl ToString, value: Option<u32>, step: Step) {
        self.calls(call, subject, Each::Only, value, 1, |_| step);
    }

    /// So many calls more that are alike, each for its number from 0 on.
    pub fn calls(&mut self, call: Call, subject: impl ToString, each: Each, value: Option<u32>, count: u32, step: impl Fn(u32) -> Step) {
        let first = self.steps.len();
        self.steps.extend((0..count).map(step));
        self.groups.push(Group {
            call,
            subject: subject.to_string(),
            each,
            steps: first..self.steps.len(),
            value,
        });
    }

    /// A step with a name.
    pub fn named(&mut self, call: u32, name: &str) -> Step {
        let (name_at, name_bytes) = self.spell(name);
        Step {
            call,
            name_at,
            name_bytes,
            ..Step::default()
        }
    }

    /// A step with a user, a name and a type.
    pub fn typed(&mut self, call: u32, user: u32, name: &str, kind: &str) -> Step {
        let step = self.named(call, name);
        let (type_at, type_bytes) = self.spell(kind);
        Step {
            user,
            type_at,
            type_bytes,
            ..step
        }
    }

    /// Letters that steps can name: where they begin among all that are lent, and how many they are.
    fn spell(&mut self, letters: &str) -> (u32, u32) {
        let first = self.text.len() as u32;
        self.text.extend(letters.as_bytes());
        (first, letters.len() as u32)
    }

    /// Bytes whose words steps can write, and where these begin among all that are lent.
    pub fn lend(&mut self, bytes: &[u8]) -> u32 {
        let first = self.data.len() as u32;
        self.data.extend(chunks::pairs(bytes));
        first
    }

    /// The index of a user. By name the library finds him too; nobody where it has to refuse that. An index is taken as it is: the call that it is
    /// meant for judges it.
    pub fn user(&mut self, user: &UserName) -> Option<u32> {
        match user {
            UserName::Index(index) => Some(index.value),
            UserName::Name(name) => {
                let (found, step) = (self.forecast.user(name), self.named(call::FIND_USER, name));
                self.call(Call::FindUser, user, found, step);
                found
            }
        }
    }

    /// The indexes of a file's user and of the file.
    pub fn file(&mut self, file: &FileName) -> Option<Place> {
        let user = self.user(&file.user)?;
        match &file.file {
            Within::Index(index) => Some((user, index.value)),
            Within::Name(name, kind) => self.file_of(user, name, kind, file).map(|found| (user, found)),
        }
    }

    /// The index of a user's file of this name and type.
    pub fn file_of(&mut self, user: u32, name: &str, kind: &str, subject: &FileName) -> Option<u32> {
        let found = self.forecast.file_named(user, name, kind).map(|file| file.index);
        let step = self.typed(call::FIND_FILE, user, name, kind);
        self.call(Call::FindFile, subject, found, step);
        found
    }
}

/// A call that takes nothing.
pub fn step(call: u32) -> Step {
    Step { call, ..Step::default() }
}

/// A call on a file, with a position or 0.
pub fn on_file(call: u32, (user, file): Place, position: u32) -> Step {
    Step {
        call,
        user,
        file,
        count: position,
        ..Step::default()
    }
}

/// So many calls are enough for a count: one more than any volume has pages, and the library refuses one of them.
pub fn enough(count: u32) -> u32 {
    count.min(MOST_PAGES as u32 + 1)
}
