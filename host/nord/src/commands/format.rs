//! Format, and the sample disk.

use super::{files, transfer, users};
use crate::answers::{Answer, Call};
use crate::args::{Ask, Change};
use crate::failure::Failure;
use crate::names::is_legal;
use crate::plan::{Plan, Planned};
use crate::store::{self, Then};
use crate::typed::Number;
use crate::{session, volume};
use proved::{call, Step};
use serde::Serialize;
use std::path::Path;

/// A volume that was formatted.
#[derive(Serialize)]
struct Formatted {
    volume: String,
    pages: u32,
    bit_page: u32,
    bit_pages: u32,
}

/// A new image file of so many pages.
pub fn new(at: &Change, name: &str, pages: &Number, bit_page: Option<&Number>) -> Result<Answer, Failure> {
    let mut image = blank(pages.value);
    let answer = session::one(&mut image, &at.image, |list| plan(list, name, bit_page)).map_err(|failure| asked_for(failure, pages))?;
    store::create(&at.image, &image)?;
    Ok(answer)
}

/// What stands on a sound volume with files: "volume YARD has 1 user and 2 files". An unsound image has none that a command reads.
fn lost(image: &[u16]) -> Option<String> {
    if proved::check(image).number != 0 {
        return None;
    }
    let volume = volume::read(image);
    let [users, files] = [volume.users.len(), volume.users.iter().map(|user| user.files.len()).sum()];
    let counted = |count: usize, what: &str| format!("{count} {what}{}", if count == 1 { "" } else { "s" });
    let words = || {
        format!(
            "volume {} has {} and {}",
            volume.name,
            counted(users, "user"),
            counted(files, "file")
        )
    };
    (files > 0).then(words)
}

/// Formats an image that is there. Files on it are lost only by `force`.
pub fn over(image: &mut [u16], path: &Path, name: &str, bit_page: Option<&Number>, force: bool) -> Result<(Answer, Then), Failure> {
    let Some(lost) = lost(image).filter(|_| !force) else {
        let answer = session::one(image, path, |list| plan(list, name, bit_page))?;
        return Ok((answer, Then::Replace));
    };
    // A format that the library refuses loses nothing: that is said first.
    session::one(&mut image.to_vec(), path, |list| plan(list, name, bit_page))?;
    Err(Failure::Usage(format!(
        "{}: {lost}, which a format loses: nothing is changed without --force (`nord export` copies files out)",
        path.display()
    )))
}

/// An image of zeros. Where there are too many pages, one too many is enough for the library to refuse.
fn blank(pages: u32) -> Vec<u16> {
    vec![0; (pages as usize).min(proved::MOST_PAGES + 1) * proved::PAGE]
}

/// Number 1 of a new image says how many pages it was to have.
fn asked_for(failure: Failure, pages: &Number) -> Failure {
    match failure {
        Failure::Refused(refusal) if refusal.number == 1 => refusal.with(format!("{} asked for", pages.pages())).into(),
        _ => failure,
    }
}

/// The call that formats the image.
pub fn plan(plan: &mut Plan, name: &str, bit_page: Option<&Number>) -> Planned {
    let (pages, first) = (plan.pages(), bit_page.map_or(plan.pages() / 2, |page| page.value));
    let step = match bit_page {
        None => plan.named(call::FORMAT_DEFAULT, name),
        Some(_) => Step {
            count: first,
            ..plan.named(call::FORMAT, name)
        },
    };
    match is_legal(name) {
        true => plan.call(Call::FormatAt, would_be(pages, first, bit_page), None, step),
        false => plan.call(Call::Format, name, None, step),
    }
    plan.forecast.clear();
    let (volume, bit_pages) = (name.to_string(), bits(pages));
    Ok(Some(Box::new(move |_| {
        let place = match bit_pages {
            1 => format!("page {first}"),
            _ => format!("pages {first} to {}", first + bit_pages - 1),
        };
        let line = format!("volume {volume} of {pages} pages, bit file on {place}");
        Answer::new(
            line,
            Formatted {
                volume,
                pages,
                bit_page: first,
                bit_pages,
            },
        )
    })))
}

/// The pages of the bit file of so many pages.
fn bits(pages: u32) -> u32 {
    proved::bit_pages(pages as usize) as u32
}

/// Where the bit file would be, for a refusal.
fn would_be(pages: u32, first: u32, typed: Option<&Number>) -> String {
    let (bits, begin) = (bits(pages), typed.map_or(first.to_string(), Number::to_string));
    let last = u64::from(first) + u64::from(bits).saturating_sub(1);
    let place = match bits {
        1 => format!("the bit file would be page {begin}"),
        // Of a number that 32 bits do not hold only its beginning is told.
        _ if begin != first.to_string() => format!("the {bits} pages of the bit file would begin at {begin}"),
        _ => format!("the {bits} pages of the bit file would be {first} to {last}"),
    };
    format!("{place}, and pages 1 to {} are there for it", pages.saturating_sub(1))
}

/// A sample disk that was made.
#[derive(Serialize)]
struct Sample {
    volume: &'static str,
    pages: u32,
}

/// Volume YARD with user DOCK, an indexed file of three pages and a contiguous one of ten.
pub fn sample(at: &Ask) -> Result<Answer, Failure> {
    let mut image = blank(154);
    session::one(&mut image, &at.image, yard)?;
    store::create(&at.image, &image)?;
    let (volume, pages) = ("YARD", 154);
    Ok(Answer::new(
        format!("sample disk: volume {volume} of {pages} pages"),
        Sample { volume, pages },
    ))
}

/// The calls that make the sample disk.
fn yard(list: &mut Plan) -> Planned {
    let told = plan(list, "YARD", None)?;
    let user = users::create(list, "DOCK").unwrap_or_default();
    list.call(Call::Give, "DOCK", None, users::on_user(call::GIVE, user, 100));
    let (reads, lambs) = ("DOCK/READS:DATA".parse(), "DOCK/LAMBS:DATA".parse());
    let (reads, lambs) = (reads.map_err(Failure::Usage)?, lambs.map_err(Failure::Usage)?);
    let page = |position| page(&format!("Page {position} of READS:DATA, a file of user DOCK on volume YARD.\n"));
    let bytes = (0..3).flat_map(page).collect::<Vec<_>>();
    let creation = transfer::Creation {
        contiguous: false,
        created: 0,
    };
    transfer::put(list, &reads, &bytes, &creation)?;
    files::make(list, &lambs, Some(10.into()), 0)?;
    Ok(told)
}

/// A page that begins with the text and goes on with zeros.
fn page(text: &str) -> Vec<u8> {
    let mut bytes = text.as_bytes().to_vec();
    bytes.resize(store::PAGE, 0);
    bytes
}
