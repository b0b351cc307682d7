//! A user's files out to a folder of the host.

use super::import::{and_left, some};
use super::transfer;
use crate::answers::{self, plain, Answer, Call};
use crate::args::Export;
use crate::failure::Failure;
use crate::folder::{self, New};
use crate::legal::host_name;
use crate::names::{FileName, UserName, Within};
use crate::pattern::Pattern;
use crate::plan::{self, Plan};
use crate::progress::Progress;
use crate::volume;
use proved::call;
use serde::Serialize;
use std::ops::Range;

/// What became of a file.
#[derive(Serialize)]
struct Exported {
    user: u32,
    file: u32,
    name: String,
    #[serde(rename = "type")]
    kind: String,
    pages: u32,
    output: String,
    /// Whether the host's file was written; else it was there and was left.
    written: bool,
}

/// All files of an export.
#[derive(Serialize)]
struct Exports {
    folder: String,
    files: Vec<Exported>,
    exported: usize,
    left: usize,
    pages: u32,
}

pub fn export(image: &mut [u16], with: &Export) -> Result<Answer, Failure> {
    let mut list = Plan::on(image, &with.at.image);
    let calls = wanted(&mut list, with)?;
    let replies = plan::make(&list, 0..list.len(), image)?;
    if calls.is_empty() && with.files.contains('/') {
        return Err(plain(4, format!("there is no such file: no file is named like {}", with.files)).into());
    }
    let bar = Progress::start("writing", "files", calls.len() as u64);
    let (mut new, mut files) = (Vec::new(), Vec::new());
    for (mut file, calls) in calls {
        let path = with.folder.join(host_name(&file.name, &file.kind));
        file.output = path.to_string_lossy().into_owned();
        file.written = !(with.no_clobber && path.symlink_metadata().is_ok());
        if file.written {
            new.push(New {
                path,
                bytes: transfer::bytes_at(image, &replies[calls]),
            });
        }
        files.push(file);
        bar.step();
    }
    folder::put(&with.folder, &with.at.image, new)?;
    Ok(answer(with, files))
}

/// The files that are asked for, each with the calls that ask for its pages.
fn wanted(list: &mut Plan, with: &Export) -> Result<Vec<(Exported, Range<usize>)>, Failure> {
    let (user, pattern) = match with.files.split_once('/') {
        Some((user, pattern)) => (user, pattern),
        None => (&with.files[..], "*"),
    };
    let user: UserName = user.parse().map_err(Failure::Usage)?;
    let Some(index) = list.user(&user) else { return Ok(Vec::new()) };
    let files: Vec<volume::File> = list.forecast.files(index).to_vec();
    let such: Vec<&volume::File> = files.iter().filter(|file| is_wanted(file, pattern)).collect();
    // An image may be unsound though no call asks for a page.
    list.call(Call::Check, "", None, plan::step(call::CHECK));
    Ok(such.into_iter().map(|file| asked(list, &user, index, file)).collect())
}

/// Whether a file is meant: by its index after @, or by a pattern of its name and type.
fn is_wanted(file: &volume::File, pattern: &str) -> bool {
    match pattern.strip_prefix('@') {
        Some(index) => index.parse() == Ok(file.index),
        None => Pattern::of(pattern).matches(&file.name, &file.type_name),
    }
}

/// The calls that find a file and ask for its pages.
fn asked(list: &mut Plan, user: &UserName, index: u32, file: &volume::File) -> (Exported, Range<usize>) {
    let (name, kind) = (file.name.clone(), file.type_name.clone());
    let subject = FileName {
        user: user.clone(),
        file: Within::Name(name.clone(), kind.clone()),
    };
    list.file_of(index, &name, &kind, &subject);
    let calls = transfer::pages_of(list, &subject, (index, file.index));
    let exported = Exported {
        user: index,
        file: file.index,
        name,
        kind,
        pages: calls.len() as u32,
        output: String::new(),
        written: false,
    };
    (exported, calls)
}

fn answer(with: &Export, files: Vec<Exported>) -> Answer {
    let line = |file: &Exported| {
        let became = if file.written { "" } else { " is there and is left" };
        format!("{}:{} -> {}{became}\n", file.name, file.kind, file.output)
    };
    let mut text: String = files.iter().map(line).collect();
    let exported = files.iter().filter(|file| file.written).count();
    let pages = files.iter().filter(|file| file.written).map(|file| file.pages).sum();
    let (left, folder) = (files.len() - exported, with.folder.to_string_lossy().into_owned());
    text += &format!(
        "{} copied to {folder}, {}{}\n",
        some(exported),
        answers::pages(pages),
        and_left(left)
    );
    Answer::of(
        text,
        Exports {
            folder,
            files,
            exported,
            left,
            pages,
        },
    )
}
