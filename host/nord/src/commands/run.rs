//! The lines of a script on one image: one lock, one check, one replacement.

use super::{kind, Kind, Work};
use crate::answers::{fields, item, Answer};
use crate::args;
use crate::failure::Failure;
use crate::script::{self, failed, Words};
use crate::session::Session;
use crate::store::{self, Then};
use std::collections::BTreeMap;

pub fn run(with: &args::Run) -> Result<Answer, Failure> {
    let lines = script::read(with.script.as_deref())?;
    // A line that is no command is told before any is run.
    lines.iter().try_for_each(|line| line.command(&with.at.image, false).map(drop))?;
    store::change_or_keep(&with.at.image, with.at.wait, |image| {
        made(image, with, &lines).map_err(|failure| failure.sized(image.len()))
    })
}

/// Runs all lines, and puts together what they say.
fn made(image: &mut [u16], with: &args::Run, lines: &[Words]) -> Result<(Answer, Then), Failure> {
    let mut session = Session::on(image, &with.at.image, with.keep_going);
    let (mut refused, mut next, mut then) = (BTreeMap::new(), 0, Then::Keep);
    loop {
        let stopped = match lines.get(next) {
            Some(line) => one(&mut session, with, line, next, &mut then),
            None => session.end(),
        };
        next = match stopped {
            Ok(()) if next == lines.len() => break,
            Ok(()) => next + 1,
            Err((number, failure)) => {
                let failure = failed(&lines[number].line, told(failure, with.keep_going));
                if !with.keep_going {
                    return Err(failure);
                }
                refused.insert(number, failure);
                number + 1
            }
        };
    }
    Ok((answer(session, lines, refused), then))
}

/// A refusal that ends the run says that nothing is kept.
fn told(failure: Failure, goes_on: bool) -> Failure {
    match failure {
        Failure::Refused(refusal) if !goes_on => {
            let words = "no line is kept, and the image is as it was; with --keep-going the others are made";
            refusal.also(item("script", words)).into()
        }
        _ => failure,
    }
}

/// Runs a line by its place among all lines.
fn one(session: &mut Session, with: &args::Run, line: &Words, at: usize, then: &mut Then) -> Result<(), (usize, Failure)> {
    let command = line.command(&with.at.image, with.at.json).map_err(|failure| (at, failure))?;
    match kind(command).map_err(|failure| (at, failure))? {
        Kind::On { work, .. } => {
            if !matches!(work, Work::Check(_) | Work::Ask(_)) {
                *then = Then::Replace;
            }
            session.line(at, work)
        }
        Kind::Whole(_) => Err((at, Failure::Usage("no line of a script".to_string()))),
    }
}

/// What all lines say, in their order.
fn answer(session: Session, lines: &[Words], refused: BTreeMap<usize, Failure>) -> Answer {
    let mut all = Answer {
        status: refused.values().next().map_or(0, Failure::status),
        ..Answer::default()
    };
    let done = session.answers();
    let mut told: BTreeMap<usize, _> = BTreeMap::new();
    for (at, answer) in done {
        all.text += &answer.text;
        all.warnings.extend(answer.warnings);
        let mut json = answer.json.into_iter().next().unwrap_or_default();
        json.extend(fields(&lines[at].line));
        told.insert(at, json);
    }
    for (at, failure) in refused {
        all.warnings.push(failure.words());
        told.insert(at, fields(failure.told()));
    }
    all.json = told.into_values().collect();
    all
}
