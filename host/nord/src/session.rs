//! An image under the hands of one command, or of the lines of a script one after the other. Calls that change it are gathered and made together,
//! with one check for all of them; who asks sees the image as the lines before have left it.

use crate::answers::Answer;
use crate::commands::{ask, Work};
use crate::failure::Failure;
use crate::plan::{self, Made, Plan, Planned, Stopped, Tell};
use proved::Reply;
use std::ops::Range;
use std::path::Path;

/// One command that changes an image.
pub fn one(image: &mut [u16], path: &Path, work: impl FnOnce(&mut Plan) -> Planned) -> Result<Answer, Failure> {
    let mut plan = Plan::on(image, path);
    let tell = work(&mut plan)?;
    let replies = plan::make(&plan, 0..plan.len(), image)?;
    told(tell, &replies, image)
}

/// What is said of calls that were made.
fn told(tell: Option<Tell>, replies: &[Reply], image: &[u16]) -> Result<Answer, Failure> {
    match tell {
        Some(tell) => Ok(tell(&Made { replies, image })),
        None => Err(plan::unforeseen("it has done what it was to refuse").into()),
    }
}

/// A line that is planned and not made yet.
struct Line {
    number: usize,
    calls: Range<usize>,
    tell: Option<Tell>,
}

/// The line that was refused, by its number, and why.
pub type Refused = (usize, Failure);

/// An image and the lines on it.
pub struct Session<'a> {
    image: &'a mut [u16],
    path: &'a Path,
    plan: Plan,
    lines: Vec<Line>,
    answers: Vec<(usize, Answer)>,
    /// The image before the lines that are planned, where a refused line is to leave those before it.
    before: Option<Vec<u16>>,
}

impl Session<'_> {
    /// Where lines go on after a refused one, that one is taken back.
    pub fn on<'a>(image: &'a mut [u16], path: &'a Path, goes_on: bool) -> Session<'a> {
        Session {
            plan: Plan::on(image, path),
            before: goes_on.then(|| image.to_vec()),
            image,
            path,
            lines: Vec::new(),
            answers: Vec::new(),
        }
    }

    /// A line more. The refused line may be this one or one before it that was planned: all after it are forgotten.
    pub fn line(&mut self, number: usize, work: Work) -> Result<(), Refused> {
        match work {
            Work::Check(at) => {
                self.make()?;
                self.answer(number, |image| ask::check(image, &at))
            }
            Work::Ask(ask) => {
                self.make()?;
                self.answer(number, |image| ask(image))
            }
            Work::Mend(mend) => {
                self.make()?;
                self.answer(number, |image| mend(image).map(|(answer, _)| answer))?;
                self.again();
                Ok(())
            }
            Work::Change(change) => self.change(number, change),
        }
    }

    /// The answer of a line that sees the image itself.
    fn answer(&mut self, number: usize, work: impl FnOnce(&mut [u16]) -> Result<Answer, Failure>) -> Result<(), Refused> {
        let answer = work(self.image).map_err(|failure| (number, failure))?;
        self.answers.push((number, answer));
        Ok(())
    }

    /// Plans the calls of a line. They are made with those of the lines after it, unless what is said of them is seen in the image, or the library is
    /// to refuse the last.
    fn change(&mut self, number: usize, change: impl FnOnce(&mut Plan) -> Planned) -> Result<(), Refused> {
        let first = self.plan.len();
        let planned = change(&mut self.plan);
        let calls = first..self.plan.len();
        let tell = match planned {
            Ok(tell) => tell,
            Err(failure) => {
                self.plan.forget(first);
                self.make()?;
                self.again();
                return Err((number, failure));
            }
        };
        let now = tell.is_none() || self.plan.seen;
        self.lines.push(Line { number, calls, tell });
        match now {
            true => self.make(),
            false => Ok(()),
        }
    }

    /// Makes the calls that are planned.
    fn make(&mut self) -> Result<(), Refused> {
        if self.lines.is_empty() {
            return Ok(());
        }
        let lines = std::mem::take(&mut self.lines);
        let made = match plan::make(&self.plan, 0..self.plan.len(), self.image) {
            Ok(replies) => self.tell(lines, &replies),
            Err(Stopped::Refused(call, refusal)) => self.take_back(lines, call).and_then(|number| Err((number, refusal.into()))),
            Err(unforeseen) => Err((0, unforeseen.into())),
        };
        self.again();
        made
    }

    /// What lines have done.
    fn tell(&mut self, lines: Vec<Line>, replies: &[Reply]) -> Result<(), Refused> {
        for line in lines {
            let answer = told(line.tell, &replies[line.calls], self.image).map_err(|failure| (line.number, failure))?;
            self.answers.push((line.number, answer));
        }
        Ok(())
    }

    /// The line of a call that was refused; where lines go on, the image becomes what the lines before it leave.
    fn take_back(&mut self, mut lines: Vec<Line>, call: usize) -> Result<usize, Refused> {
        let at = lines.iter().position(|line| line.calls.contains(&call)).unwrap_or(0);
        let (number, first) = lines.get(at).map_or((0, 0), |line| (line.number, line.calls.start));
        if let Some(before) = &self.before {
            lines.truncate(at);
            self.image.copy_from_slice(before);
            let replies = plan::make(&self.plan, 0..first, self.image).map_err(|stopped| (number, stopped.into()))?;
            self.tell(lines, &replies)?;
        }
        Ok(number)
    }

    /// Begins a new list on the image as it is.
    fn again(&mut self) {
        self.plan = Plan::on(self.image, self.path);
        if let Some(before) = &mut self.before {
            before.copy_from_slice(self.image);
        }
    }

    /// Makes what is left.
    pub fn end(&mut self) -> Result<(), Refused> {
        self.make()
    }

    /// The answers of all lines that were done, by their numbers.
    pub fn answers(self) -> Vec<(usize, Answer)> {
        self.answers
    }
}
