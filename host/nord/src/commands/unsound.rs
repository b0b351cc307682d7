//! Commands that show what can be read of an unsound image with `--unsound`. Without it an unsound image is refused, and the refusal says how to
//! look at it; on a sound image they answer the same with the flag and without.

use super::{ask, map, transfer};
use crate::answers::{item, pages, Answer, Call, Refusal};
use crate::args::{Ask, Colour};
use crate::failure::{standard_output, Failure};
use crate::map::{draw, write, Drawing};
use crate::names::FileName;
use crate::typed::Number;
use crate::unsound::{drawn, Broken, Contents, DrawnJson, Judge, Listing, Unreadable, Who};
use crate::{output, store, volume};
use proved::Reply;
use serde::Serialize;
use std::io::Write;
use std::path::Path;

/// Whether an image may be unsound, and the command in words.
struct Asked {
    unsound: bool,
    line: String,
}

impl Asked {
    /// A command on an image, with the words behind it.
    fn of(command: &str, at: &Ask, rest: &str, unsound: bool) -> Asked {
        let line = format!("nord {command} {}{rest}", store::shown(&at.image).display());
        Asked { unsound, line }
    }

    /// The answer that a sound image gets; of an unsound one what can be seen, or how to look at it.
    fn answer(
        &self,
        image: &mut [u16],
        sound: impl FnOnce(&mut [u16]) -> Result<Answer, Failure>,
        seen: impl FnOnce(&Judge, Broken) -> Result<Answer, Failure>,
    ) -> Result<Answer, Failure> {
        if self.unsound {
            let reply = proved::check(image);
            if reply.number == 3 {
                return seen(&Judge::of(image), Broken::of(reply));
            }
        }
        sound(image).map_err(|failure| self.look(failure))
    }

    /// The refusal of an unsound image says how to look at it.
    fn look(&self, failure: Failure) -> Failure {
        match failure {
            Failure::Refused(refusal) if refusal.number == 3 => refusal.also(item("look", &format!("{} --unsound", self.line))).into(),
            _ => failure,
        }
    }
}

pub fn list(image: &mut [u16], at: &Ask, unsound: bool) -> Result<Answer, Failure> {
    let seen = |judge: &Judge, broken: Broken| {
        let listing = Listing::of(judge, broken);
        Ok(Answer::of(listing.text(), &listing))
    };
    Asked::of("list", at, "", unsound).answer(image, |image| ask::list(image), seen)
}

pub fn who(image: &mut [u16], at: &Ask, page: &Number, unsound: bool) -> Result<Answer, Failure> {
    let seen = |judge: &Judge, broken: Broken| {
        let pages = judge.disk.pages();
        if page.value >= pages {
            return Err(refused(2, Call::Who, format!("page {page} of {pages}")));
        }
        let who = Who::of(judge, broken, page.value);
        Ok(Answer::of(who.text(), &who))
    };
    Asked::of("who", at, &format!(" {page}"), unsound).answer(image, |image| ask::who(image, page), seen)
}

/// What the library would refuse with this number, were the image sound.
fn refused(number: u32, call: Call, subject: String) -> Failure {
    let reply = Reply {
        number,
        ..Reply::default()
    };
    Refusal::of(reply, call, subject).into()
}

/// How a map is wanted.
pub struct Look<'a> {
    pub svg: Option<&'a Path>,
    pub width: Option<u32>,
    pub colour: Colour,
}

pub fn map(image: &mut [u16], at: &Ask, look: Look, unsound: bool) -> Result<Answer, Failure> {
    let Look { svg, width, colour } = look;
    let seen = |judge: &Judge, broken: Broken| {
        let volume = volume::of(&judge.disk);
        let drawing = Drawing {
            volume: &volume,
            pages: drawn(judge),
            unsound: Some(broken.line()),
        };
        let text = match svg {
            Some(path) => {
                output::save(path, &at.image, draw(&drawing).as_bytes())?;
                format!("{}\nmap of {} in {}\n", broken.line(), volume.name, path.display())
            }
            None => write(&drawing, map::columns(width), map::coloured(colour)),
        };
        Ok(match at.json {
            true => Answer::of(text, DrawnJson::of(judge, broken, &drawing.pages, svg)),
            false => Answer::of(text, broken),
        })
    };
    Asked::of("map", at, "", unsound).answer(image, |image| map::map(image, at, svg, width, colour), seen)
}

pub fn read(image: &mut [u16], at: &Ask, file: &FileName, output: Option<&Path>, unsound: bool) -> Result<Answer, Failure> {
    let seen = |judge: &Judge, broken: Broken| {
        let to = output.filter(|path| *path != Path::new("-"));
        if at.json && to.is_none() {
            let words = "read with --json needs a host's file: standard output has the answer";
            return Err(Failure::Usage(words.to_string()));
        }
        let contents = Contents::of(judge, broken, file).map_err(|why| unreadable(why, broken))?;
        deliver(&contents, at, file, to)
    };
    let asked = Asked::of("read", at, &format!(" {file}"), unsound);
    asked.answer(image, |image| transfer::read(image, at, file, output), seen)
}

/// A file of which nothing can be read.
fn unreadable(why: Unreadable, broken: Broken) -> Failure {
    match why {
        Unreadable::Absent(name) => refused(4, Call::FindFile, name),
        Unreadable::Shapeless(words) => {
            let refusal = Refusal::of(broken.reply(), Call::FindFile, "");
            Refusal { words, ..refusal }.into()
        }
    }
}

/// The bytes to their place, and the doubts to standard error.
fn deliver(contents: &Contents, at: &Ask, file: &FileName, to: Option<&Path>) -> Result<Answer, Failure> {
    let output = to.map(|path| path.to_string_lossy().into_owned());
    let text = match to {
        None => {
            let mut out = std::io::stdout().lock();
            let written = out.write_all(&contents.data).and_then(|()| out.flush());
            written.map_err(standard_output)?;
            String::new()
        }
        Some(path) => {
            output::save(path, &at.image, &contents.data)?;
            format!("{} of {file} in {}\n", pages(contents.pages()), path.display())
        }
    };
    Ok(Answer {
        warnings: vec![contents.lines().join("\n")],
        ..Answer::of(text, Delivered { contents, output })
    })
}

/// What was read, and where to.
#[derive(Serialize)]
struct Delivered<'a> {
    #[serde(flatten)]
    contents: &'a Contents,
    output: Option<String>,
}
