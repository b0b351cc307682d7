//! One file for each subject of commands. Each command gives its answer or says what failed.

pub mod ask;
mod convert;
mod export;
mod files;
mod format;
mod import;
mod map;
mod page;
mod rescue;
mod run;
mod salvage;
mod transfer;
mod unsound;
mod users;

use crate::answers::Answer;
use crate::args::{Ask, Command};
use crate::failure::Failure;
use crate::plan::{Plan, Planned};
use crate::store::{self, Then};
use crate::{completions, manual, session};
use std::path::{Path, PathBuf};

/// What a command does with an image.
pub enum Work {
    /// It checks the image, and of a sound one the check's reply is all that is told.
    Check(Ask),
    /// It asks: nothing is changed.
    Ask(Box<dyn FnOnce(&mut [u16]) -> Result<Answer, Failure>>),
    /// It changes the image by a list of calls.
    Change(Box<dyn FnOnce(&mut Plan) -> Planned>),
    /// It sees the image itself, and says whether there is anything to replace it for. Where it fails the image is as it was.
    Mend(Box<dyn FnOnce(&mut [u16]) -> Result<(Answer, Then), Failure>>),
}

/// A command's work on an image, or a command that makes an image or needs none.
pub enum Kind {
    On { image: PathBuf, wait: u64, work: Work },
    Whole(Box<dyn FnOnce() -> Result<Answer, Failure>>),
}

pub fn run(command: Command) -> Result<Answer, Failure> {
    match kind(command)? {
        Kind::Whole(work) => work(),
        Kind::On { image, wait, work } => on(&image, wait, work),
    }
}

/// Work on an image file. Who only asks takes no lock.
fn on(path: &Path, wait: u64, work: Work) -> Result<Answer, Failure> {
    match work {
        Work::Check(at) => check(path, &at),
        Work::Ask(ask) => {
            let mut image = store::read(path)?;
            ask(&mut image).map_err(|failure| failure.sized(image.len()))
        }
        Work::Change(change) => store::change(path, wait, |image| {
            session::one(image, path, change).map_err(|failure| failure.sized(image.len()))
        }),
        Work::Mend(mend) => store::change_or_keep(path, wait, |image| mend(image).map_err(|failure| failure.sized(image.len()))),
    }
}

/// Checks an image file. It is read whole only if there is something wrong to tell of it, or if it comes by a pipe or is small.
fn check(path: &Path, at: &Ask) -> Result<Answer, Failure> {
    if let Some(answer) = store::check(path)?.and_then(|checked| ask::sound(checked.reply, checked.words)) {
        return Ok(answer);
    }
    let image = store::read(path)?;
    ask::check(&image, at).map_err(|failure| failure.sized(image.len()))
}

/// What a command is.
pub fn kind(command: Command) -> Result<Kind, Failure> {
    match command {
        Command::Format {
            at,
            name,
            pages: Some(pages),
            bit_page,
            ..
        } => Ok(whole(move || format::new(&at, &name, &pages, bit_page.as_ref()))),
        Command::Sample(at) => Ok(whole(move || format::sample(&at))),
        Command::Run(with) => Ok(whole(move || run::run(&with))),
        Command::Manual => Ok(whole(|| Ok(Answer::plain(manual::page())))),
        Command::Completions { shell } => Ok(whole(move || Ok(Answer::plain(completions::script(shell))))),
        Command::User(command) => Ok(change(command.at().clone(), |plan| users::plan(command, plan))),
        Command::File(command) => Ok(change(command.at().clone(), |plan| files::plan(command, plan))),
        Command::Format {
            at, name, bit_page, force, ..
        } => Ok(mend(at.clone(), move |image| {
            format::over(image, &at.image, &name, bit_page.as_ref(), force)
        })),
        Command::Convert { at, to } => Ok(change(at, move |plan| convert::plan(plan, to))),
        Command::Import(with) => Ok(change(with.at.clone(), move |plan| import::plan(plan, &with))),
        Command::Write {
            at,
            file,
            input,
            contiguous,
            created,
        } => {
            let (mut bytes, creation) = (Vec::new(), transfer::Creation { contiguous, created });
            transfer::load(&input, &mut bytes)?;
            Ok(change(at, move |plan| transfer::write(plan, file, &bytes, &creation)))
        }
        Command::Salvage(with) => Ok(salvaging(with)),
        asking => Ok(asks(asking)),
    }
}

fn whole(work: impl FnOnce() -> Result<Answer, Failure> + 'static) -> Kind {
    Kind::Whole(Box::new(work))
}

fn change(at: crate::args::Change, work: impl FnOnce(&mut Plan) -> Planned + 'static) -> Kind {
    Kind::On {
        image: at.image,
        wait: at.wait,
        work: Work::Change(Box::new(work)),
    }
}

fn mend(at: crate::args::Change, work: impl FnOnce(&mut [u16]) -> Result<(Answer, Then), Failure> + 'static) -> Kind {
    Kind::On {
        image: at.image,
        wait: at.wait,
        work: Work::Mend(Box::new(work)),
    }
}

fn ask(image: PathBuf, work: impl FnOnce(&mut [u16]) -> Result<Answer, Failure> + 'static) -> Kind {
    Kind::On {
        image,
        wait: 0,
        work: Work::Ask(Box::new(work)),
    }
}

/// A dry run only asks the image: it needs no lock, and no leave to write.
fn salvaging(with: crate::args::Salvage) -> Kind {
    match with.dry_run {
        true => ask(with.at.image.clone(), move |image| {
            salvage::salvage(image, &with).map(|(answer, _)| answer)
        }),
        false => mend(with.at.clone(), move |image| salvage::salvage(image, &with)),
    }
}

/// The commands that ask.
fn asks(command: Command) -> Kind {
    match command {
        Command::List { at, look } => ask(at.image.clone(), move |image| unsound::list(image, &at, look.unsound)),
        Command::Find { at, name } => ask(at.image.clone(), move |image| ask::find(image, &at, &name)),
        Command::Address { at, file, position } => ask(at.image.clone(), move |image| ask::address(image, &at, &file, &position)),
        Command::Who { at, page, look } => ask(at.image.clone(), move |image| unsound::who(image, &at, &page, look.unsound)),
        Command::Read { at, file, output, look } => ask(at.image.clone(), move |image| {
            unsound::read(image, &at, &file, output.as_deref(), look.unsound)
        }),
        Command::Export(with) => ask(with.at.image.clone(), move |image| export::export(image, &with)),
        Command::Rescue { at, folder } => ask(at.image.clone(), move |image| rescue::rescue(image, &at, &folder)),
        Command::Page { at, page, word, .. } => ask(at.image, move |image| page::page(image, &page, word.as_ref())),
        Command::Map {
            at,
            svg,
            width,
            colour,
            look,
        } => ask(at.image.clone(), move |image| {
            let svg = svg.as_deref();
            unsound::map(image, &at, unsound::Look { svg, width, colour }, look.unsound)
        }),
        Command::Check(at) => Kind::On {
            image: at.image.clone(),
            wait: 0,
            work: Work::Check(at),
        },
        _ => whole(|| Err(Failure::Usage("this command asks no image".to_string()))),
    }
}
