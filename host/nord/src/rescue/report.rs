//! What a rescue has copied out and what it has left, in words and for programs.

use super::chosen::{Choice, Chosen, Left};
use crate::copies::Copied;
use crate::unsound::{words, Broken, Doubt, File, Judge};
use serde::Serialize;
use std::path::Path;

#[derive(Serialize)]
pub struct Report {
    #[serde(flatten)]
    state: State,
    folder: String,
    written: usize,
    there: usize,
    copied: Vec<CopiedOut>,
    left: Vec<LeftThere>,
    hidden: Vec<Fault>,
}

/// Whether the image is sound, or its lowest broken rule and the first place.
#[derive(Serialize)]
#[serde(untagged)]
enum State {
    Sound { sound: bool },
    Unsound(Broken),
}

/// A file's names and numbers.
#[derive(Serialize)]
struct Named {
    user: u32,
    file: u32,
    user_name: Option<String>,
    name: String,
    #[serde(rename = "type")]
    type_name: String,
    pages: u32,
}

#[derive(Serialize)]
struct CopiedOut {
    #[serde(flatten)]
    named: Named,
    path: String,
}

#[derive(Serialize)]
struct LeftThere {
    #[serde(flatten)]
    named: Named,
    #[serde(flatten)]
    fault: Option<Fault>,
    doubts: Vec<String>,
}

/// A rule that is broken, and its place.
#[derive(Serialize)]
struct Fault {
    rule: u32,
    page: u32,
    word: u32,
    fault: String,
    #[serde(skip)]
    with_place: String,
}

impl Report {
    pub fn of(judge: &Judge, broken: Option<Broken>, choice: &Choice, copied: Copied, folder: &Path) -> Report {
        Report {
            state: broken.map_or(State::Sound { sound: true }, State::Unsound),
            folder: folder.to_string_lossy().into_owned(),
            written: copied.written,
            there: copied.there,
            copied: choice.chosen.iter().map(|chosen| CopiedOut::of(judge, chosen)).collect(),
            left: choice.left.iter().map(|left| LeftThere::of(judge, left)).collect(),
            hidden: judge.hidden().iter().map(Fault::of).collect(),
        }
    }

    /// A line for each file that is left and for each place that may hide files, and the totals.
    pub fn text(&self, image: &Path) -> String {
        let mut lines: Vec<String> = self.left.iter().map(LeftThere::line).collect();
        let hidden = self.hidden.iter();
        lines.extend(hidden.map(|fault| format!("users or files may not be found: {}", fault.with_place)));
        lines.push(self.totals(image));
        lines.iter().map(|line| format!("{line}\n")).collect()
    }

    /// "12 files copied out to reads, 2 left: nord read disk.img @0/@3 --unsound reads what can be read".
    fn totals(&self, image: &Path) -> String {
        let there = match self.there {
            0 => String::new(),
            there => format!(" ({there} there already with the same content)"),
        };
        let copied = format!("{} copied out to {}{there}", files(self.copied.len()), self.folder);
        match self.left.first() {
            None => copied,
            Some(first) => format!(
                "{copied}, {} left: nord read {} @{}/@{} --unsound reads what can be read",
                self.left.len(),
                image.display(),
                first.named.user,
                first.named.file
            ),
        }
    }
}

/// So many files, in words.
fn files(count: usize) -> String {
    match count {
        1 => "1 file".to_string(),
        _ => format!("{count} files"),
    }
}

impl Named {
    fn of(judge: &Judge, file: &File) -> Named {
        Named {
            user: file.user(),
            file: file.index(),
            user_name: judge.disk.user(file.user()).map(|entry| entry.name()),
            name: file.entry.name(),
            type_name: file.entry.type_name(),
            pages: file.entry.pages(),
        }
    }

    /// "DOCK/READS:DATA (user 0 file 0)", as far as there are names.
    fn words(&self) -> String {
        let owner = match &self.user_name {
            Some(name) if !name.is_empty() => name.clone(),
            _ => format!("@{}", self.user),
        };
        let Named {
            user,
            file,
            name,
            type_name,
            ..
        } = self;
        match name.is_empty() {
            true => format!("{owner}/@{file} (user {user} file {file})"),
            false => format!("{owner}/{name}:{type_name} (user {user} file {file})"),
        }
    }
}

impl CopiedOut {
    fn of(judge: &Judge, chosen: &Chosen) -> CopiedOut {
        CopiedOut {
            named: Named::of(judge, &chosen.file),
            path: chosen.copy.target.to_string_lossy().into_owned(),
        }
    }
}

impl LeftThere {
    fn of(judge: &Judge, left: &Left) -> LeftThere {
        LeftThere {
            named: Named::of(judge, &left.file),
            fault: left.faults.first().map(Fault::of),
            doubts: words(&left.faults),
        }
    }

    fn line(&self) -> String {
        let fault = self.fault.as_ref().map_or("", |fault| &fault.with_place);
        format!("{}: {fault}", self.named.words())
    }
}

impl Fault {
    fn of(doubt: &Doubt) -> Fault {
        Fault {
            rule: doubt.rule,
            page: doubt.place.page,
            word: doubt.place.word,
            fault: doubt.words.clone(),
            with_place: doubt.with_place(),
        }
    }
}
