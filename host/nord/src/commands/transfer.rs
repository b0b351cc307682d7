//! Whole files out of an image and into it, page by page.

use super::files;
use crate::answers::{self, Answer, Call};
use crate::args::Ask;
use crate::failure::{of_file, standard_output, Failure};
use crate::names::{FileName, Within};
use crate::plan::{self, on_file, Each, Place, Plan, Planned};
use crate::volume::FileKind;
use crate::{output, store};
use proved::{call, Reply, Step};
use serde::Serialize;
use std::fs;
use std::io::{Read, Write};
use std::ops::Range;
use std::path::Path;

/// How a file is made that is not there yet.
pub struct Creation {
    pub contiguous: bool,
    pub created: u32,
}

/// A file that was copied out.
#[derive(Serialize)]
struct Copied {
    pages: usize,
    bytes: usize,
    output: String,
}

pub fn read(image: &mut [u16], at: &Ask, file: &FileName, output: Option<&Path>) -> Result<Answer, Failure> {
    let output = output.filter(|path| *path != Path::new("-"));
    if at.json && output.is_none() {
        return Err(Failure::Usage(
            "read with --json needs a host's file: standard output has the answer".to_string(),
        ));
    }
    let bytes = all_pages(image, &at.image, file)?;
    let Some(path) = output else {
        let mut out = std::io::stdout().lock();
        out.write_all(&bytes).and_then(|()| out.flush()).map_err(standard_output)?;
        return Ok(Answer::default());
    };
    output::save(path, &at.image, &bytes)?;
    let pages = bytes.len() / store::PAGE;
    let line = format!("{} of {file} in {}", answers::pages(pages as u32), path.display());
    let (bytes, output) = (bytes.len(), path.to_string_lossy().into_owned());
    Ok(Answer::new(line, Copied { pages, bytes, output }))
}

/// All bytes of a file.
fn all_pages(image: &mut [u16], path: &Path, file: &FileName) -> Result<Vec<u8>, Failure> {
    let mut list = Plan::on(image, path);
    let calls = match list.file(file) {
        Some(place) => pages_of(&mut list, file, place),
        None => 0..0,
    };
    let replies = plan::make(&list, 0..list.len(), image)?;
    Ok(bytes_at(image, &replies[calls]))
}

/// The calls that ask where in the image the words of each page of a file lie. They change nothing.
pub fn pages_of(list: &mut Plan, file: &FileName, place: Place) -> Range<usize> {
    let first = list.len();
    match list.forecast.pages(place) {
        Some(pages) => list.calls(Call::Address, file, Each::Position, None, pages, |position| {
            on_file(call::READ_PAGE, place, position)
        }),
        // An index that no entry has: the library says which refusal it is.
        None => list.call(Call::FindFile, file, None, on_file(call::READ_PAGE, place, 0)),
    }
    first..list.len()
}

/// The bytes of the pages that these replies tell of.
pub fn bytes_at(image: &[u16], replies: &[Reply]) -> Vec<u8> {
    let mut bytes = Vec::with_capacity(replies.len() * store::PAGE);
    for reply in replies {
        let start = reply.value as usize;
        bytes.extend(store::bytes(&image[start..start + proved::PAGE]));
    }
    bytes
}

/// A file that was copied in.
#[derive(Clone, Debug, Serialize)]
pub struct Written {
    pub user: u32,
    pub file: u32,
    pub pages: u32,
    pub created: bool,
}

impl Written {
    /// "created: 3 pages".
    pub fn words(&self) -> String {
        let words = if self.created { "created" } else { "replaced" };
        format!("{words}: {}", answers::pages(self.pages))
    }
}

pub fn write(list: &mut Plan, file: FileName, bytes: &[u8], creation: &Creation) -> Planned {
    let Some(written) = put(list, &file, bytes, creation)? else {
        return Ok(None);
    };
    Ok(Some(Box::new(move |_| Answer::new(format!("{file} {}", written.words()), written))))
}

/// The calls that copy these pages' bytes into a file: it is created where it is not there, grows or shrinks to fit, and every page is written.
pub fn put(list: &mut Plan, file: &FileName, bytes: &[u8], creation: &Creation) -> Result<Option<Written>, Failure> {
    let pages = (bytes.len() / store::PAGE) as u32;
    let created = creation.contiguous || is_new(list, file);
    let place = match created {
        true => files::make(list, file, creation.contiguous.then_some(pages.into()), creation.created)?,
        false => list.file(file),
    };
    let Some(place) = place else { return Ok(None) };
    if !fit(list, file, place, pages) {
        return Ok(None);
    }
    let data_at = list.lend(bytes);
    list.calls(Call::Write, file, Each::Position, None, pages, |position| Step {
        data_at: data_at + proved::PAGE as u32 * position,
        ..on_file(call::WRITE_PAGE, place, position)
    });
    let (user, file) = place;
    Ok(Some(Written {
        user,
        file,
        pages,
        created,
    }))
}

/// Whether a file of a user who is there is to be created.
fn is_new(list: &Plan, file: &FileName) -> bool {
    let user = list.forecast.index(&file.user);
    match (&file.file, user) {
        (Within::Name(name, kind), Some(user)) => list.forecast.file_named(user, name, kind).is_none(),
        _ => false,
    }
}

/// The calls by which a file grows or shrinks to so many pages; whether the library is to make them.
fn fit(list: &mut Plan, file: &FileName, place: Place, pages: u32) -> bool {
    let Some(there) = list.forecast.pages(place) else {
        list.call(Call::FindFile, file, None, on_file(call::ADDRESS, place, 0));
        return false;
    };
    let contiguous = list.forecast.file(place).is_some_and(|file| file.kind == FileKind::Contiguous);
    if contiguous && pages != there {
        let subject = format!("{file} has {}, and the input has {}", answers::pages(there), answers::pages(pages));
        list.call(Call::Fit, subject, None, on_file(call::GROW, place, 0));
        return false;
    }
    if pages > there {
        files::grow_by(list, file, place, &(pages - there).into());
    }
    if pages < there {
        files::shrink_by(list, file, place, &(there - pages).into());
    }
    true
}

/// Puts the input's bytes, filled with zeros to whole pages, in the place of those that are there. Of an input larger than any image no more is
/// read than shows that.
pub fn load(input: &Path, bytes: &mut Vec<u8>) -> Result<(), Failure> {
    let limit = (proved::MOST_PAGES * store::PAGE) as u64 + 1;
    bytes.clear();
    match input == Path::new("-") {
        true => std::io::stdin().lock().take(limit).read_to_end(bytes),
        false => fs::File::open(input).and_then(|file| {
            // Room for all of it, and for what fills its last page.
            bytes.reserve(file.metadata()?.len().min(limit) as usize + store::PAGE);
            file.take(limit).read_to_end(bytes)
        }),
    }
    .map_err(of_file(input))?;
    bytes.resize(bytes.len().next_multiple_of(store::PAGE), 0);
    Ok(())
}
