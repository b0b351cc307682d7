//! Salvage of a volume whose pointers are good and whose bits or counts are not.

use crate::answers::{pages, Answer};
use crate::args::Salvage;
use crate::failure::Failure;
use crate::salvage::{copy_out, file_name, mended, refusal, CopiedOut, Mended, Salvaged};
use crate::store::Then;
use serde::Serialize;

/// The library's salvage. Pages that nobody holds are copied out before the image is replaced.
pub fn salvage(image: &mut [u16], with: &Salvage) -> Result<(Answer, Then), Failure> {
    let salvaged = Salvaged::of(image).map_err(|reply| refusal(image, reply, &with.at.image))?;
    let mended = Mended::of(image, &salvaged);
    let copied = match &with.orphans {
        Some(folder) => Some(copy_out(image, &mended.orphans, folder)?),
        None => None,
    };
    let then = match mended.nothing() || with.dry_run {
        true => Then::Keep,
        false => Then::Replace,
    };
    let answer = answer(&mended, copied.as_ref(), with, then);
    if then == Then::Replace {
        image.copy_from_slice(&salvaged.image);
    }
    Ok((answer, then))
}

/// What was wrong, in words and for programs.
fn answer(mended: &Mended, copied: Option<&CopiedOut>, with: &Salvage, then: Then) -> Answer {
    let mut lines = vec![first_line(mended, with)];
    if !mended.nothing() {
        lines.extend(mended.lines());
    }
    if !mended.orphans.is_empty() {
        lines.push(match copied {
            Some(copied) => copied.words(),
            None => to_copy_out(&mended.orphans, with),
        });
    }
    let told = Told {
        mended: mended.told(),
        dry_run: with.dry_run,
        replaced: then == Then::Replace,
        folder: copied.map(|copied| copied.folder.to_string_lossy().into_owned()),
        written: copied.map(|copied| copied.written),
    };
    Answer::new(lines.join("\n"), told)
}

/// What a salvage has changed, and where the pages are that nobody held.
#[derive(Serialize)]
struct Told {
    #[serde(flatten)]
    mended: mended::Told,
    dry_run: bool,
    replaced: bool,
    folder: Option<String>,
    written: Option<usize>,
}

fn first_line(mended: &Mended, with: &Salvage) -> String {
    let words = match mended.words() {
        0 => return "sound already: nothing to mend".to_string(),
        1 => "1 word".to_string(),
        words => format!("{words} words"),
    };
    match with.dry_run {
        true => format!("dry run: {words} would change, and the image is as it was"),
        false => format!("mended: {words} changed, and the image is sound"),
    }
}

/// How to copy out the pages that nobody holds: by a salvage, or, where that has made them free, one by one as long as no file has taken them.
fn to_copy_out(orphans: &[u32], with: &Salvage) -> String {
    let (image, first) = (with.at.image.display(), orphans.first().copied().unwrap_or_default());
    let reads = format!(
        "the words of {} that nobody holds may be somebody's reads",
        pages(orphans.len() as u32)
    );
    match with.dry_run {
        true => format!(
            "{reads}, and after a salvage a file that grows may take them. To copy them out first:\n  \
             nord salvage {image} --orphans FOLDER"
        ),
        false => format!(
            "{reads}, and a file that grows may take them now. To copy a page out before that:\n  \
             dd if={image} of={} bs=2048 skip={first} count=1",
            file_name(first)
        ),
    }
}
