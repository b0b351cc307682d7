//! One image in two copies: the proved library works on the one, the second program on the other, and after every step they are compared.

use crate::calls::{Answer, Call};
use crate::lists::{differing, from_second, in_words, to_second};
use crate::script::{Played, Script};
use crate::tally::Tally;
use crate::text::Step;
use crate::words::PAGE;
use proved::Change;
use std::panic::{catch_unwind, AssertUnwindSafe};

/// Stands for the answer of a program that panicked: no call answers so.
fn no_answer() -> Answer {
    Answer { number: u32::MAX, ..Answer::default() }
}

/// The pages of the largest image that the listing program takes.
const LISTED: usize = 32;

/// What a step answered: the call itself, with the list that was lent to it, and the check after it.
pub struct Answered {
    pub call: Answer,
    pub list: Vec<Change>,
    pub check: Answer,
}

/// What a run answered: its replies, and the check after it.
pub struct Ran {
    pub played: Played,
    pub check: Answer,
}

/// Where the two did not agree.
pub struct Disagreement {
    /// The image before the first step, and all steps with the last one, which showed it.
    pub start: Vec<u16>,
    pub steps: Vec<Step>,
    /// What differed, and both answers.
    pub what: String,
    pub proved: Answer,
    pub second: Answer,
    /// The first word that differs afterwards: its place, and both values.
    pub word: Option<(usize, u16, u16)>,
}

pub struct Both {
    start: Vec<u16>,
    steps: Vec<Step>,
    proved: Vec<u16>,
    second: Vec<u16>,
}

impl Both {
    pub fn new(start: Vec<u16>) -> Both {
        Both { proved: copy_of(&start), second: copy_of(&start), steps: Vec::new(), start }
    }

    /// Back to the image it began with.
    pub fn restart(&mut self) {
        for copy in [&mut self.proved, &mut self.second] {
            let differing = copy.chunks_mut(PAGE).zip(self.start.chunks(PAGE)).filter(|(page, start)| page != start);
            differing.for_each(|(page, start)| page.copy_from_slice(start));
        }
        self.steps.clear();
    }

    /// The image, which is the same in both copies between steps.
    pub fn image(&self) -> &[u16] {
        &self.second
    }

    /// Sets words in both copies.
    pub fn put(&mut self, words: &[(usize, u16)]) {
        for &(at, value) in words {
            self.proved[at] = value;
            self.second[at] = value;
            self.steps.push(Step::Word { at, value });
        }
    }

    /// Sets a number of two words.
    pub fn put_two(&mut self, at: usize, value: u32) {
        self.put(&[(at, (value >> 16) as u16), (at + 1, value as u16)]);
    }

    /// Sets all words in which another image differs from this one.
    pub fn put_image(&mut self, other: &[u16]) {
        let changes = differing(&self.second, other);
        let place = |change: &Change| change.page as usize * PAGE + change.word as usize;
        let words: Vec<(usize, u16)> = changes.iter().map(|change| (place(change), change.new as u16)).collect();
        self.put(&words);
    }

    /// Makes a call of both and compares all answers, all words and all records of a list; then the same with the check, and the listings of
    /// a small image.
    pub fn call(&mut self, call: Call, tally: &mut Tally) -> Result<Answered, Box<Disagreement>> {
        self.lend(None, call, tally)
    }

    /// The same with only so many words of the image lent.
    pub fn lend(&mut self, lent: Option<usize>, call: Call, tally: &mut Tally) -> Result<Answered, Box<Disagreement>> {
        let words = lent.unwrap_or(self.start.len());
        self.steps.push(Step::Call { lent, call: call.clone() });
        let (answer, list) = self.one_call("the call", &call, words)?;
        let (check, _) = self.one_call("the check after the call", &Call::Check, self.start.len())?;
        self.same_listing(check)?;
        tally.called(call.which(), &answer, &check);
        Ok(Answered { call: answer, list, check })
    }

    /// Plays a script three ways: by a run of each program, and by single calls of the proved library. The number of replies, all replies,
    /// those that no step has among them, all records of the list and all words must be the same. Then the check and the listings, as after a
    /// call.
    pub fn run(&mut self, lent: Option<usize>, script: Script, tally: &mut Tally) -> Result<Ran, Box<Disagreement>> {
        let words = lent.unwrap_or(self.start.len());
        self.steps.push(Step::Run { lent, script: script.clone() });
        let mut image = self.proved.clone();
        let single = script.singly(&mut image[..words]);
        let proved = script.on_proved(&mut self.proved[..words]);
        let mut before = std::mem::replace(&mut self.second, image);
        self.same_run("the run (told as proved) and the single calls (told as second)", &proved, &single)?;
        let second = catch_unwind(AssertUnwindSafe(|| script.on_second(&mut before[..words])));
        self.second = before;
        match second {
            Ok(second) => self.same_run("the runs", &proved, &second)?,
            Err(_) => return Err(self.disagreement("the run: the second program panicked".to_string(), no_answer(), no_answer())),
        }
        let (check, _) = self.one_call("the check after the run", &Call::Check, self.start.len())?;
        self.same_listing(check)?;
        tally.ran(&script, &proved);
        Ok(Ran { played: proved, check })
    }

    /// Two ways to play a script gave the same replies and left the same lists and words, or the first difference is told.
    fn same_run(&mut self, of: &str, one: &Played, two: &Played) -> Result<(), Box<Disagreement>> {
        if let Some(n) = (0..one.replies.len()).find(|&n| one.replies[n] != two.replies[n]) {
            return Err(self.disagreement(format!("{of}: reply {n} differs"), one.replies[n], two.replies[n]));
        }
        let none = Answer::default();
        if one.made != two.made {
            return Err(self.disagreement(format!("{of}: {} and {} steps are said to be made", one.made, two.made), none, none));
        }
        self.same_list(of, none, &one.list, &two.list)?;
        self.agree(of, none, none)
    }

    /// The listings of an image that the listing program takes are the same, byte for byte; refusals have theirs, too.
    fn same_listing(&mut self, check: Answer) -> Result<(), Box<Disagreement>> {
        if self.start.len() > LISTED * PAGE {
            return Ok(());
        }
        let bytes: Vec<u8> = self.second.iter().flat_map(|word| word.to_be_bytes()).collect();
        match proved::list(&self.proved) == second::list(&bytes) {
            true => Ok(()),
            false => Err(self.disagreement("the listing after the call differs".to_string(), check, check)),
        }
    }

    /// One call of both, and what they agree on. A panic of the second program is a disagreement, too.
    fn one_call(&mut self, of: &str, call: &Call, words: usize) -> Result<(Answer, Vec<Change>), Box<Disagreement>> {
        let mut list = call.list();
        let mut other = to_second(&list);
        let proved = call.on_proved_with(&mut self.proved[..words], &mut list);
        let part = &mut self.second[..words];
        match catch_unwind(AssertUnwindSafe(|| call.on_second_with(part, &mut other))) {
            Ok(second) => self.agree(of, proved, second)?,
            Err(_) => self.agree(&format!("{of}: the second program panicked"), proved, no_answer())?,
        }
        self.same_list(of, proved, &list, &from_second(&other))?;
        Ok((proved, list))
    }

    /// All records of the two lists are the same, those that no call wrote, too, or the first difference is told.
    fn same_list(&mut self, of: &str, answer: Answer, proved: &[Change], second: &[Change]) -> Result<(), Box<Disagreement>> {
        match (0..proved.len()).find(|&n| proved[n] != second[n]) {
            None => Ok(()),
            Some(n) => {
                let [one, two] = [proved, second].map(|list| in_words(&list[n]));
                Err(self.disagreement(format!("{of}: change {n} of the lists differs: proved {one}, second {two}"), answer, answer))
            }
        }
    }

    /// Both answers and both images are the same, or the disagreement is told.
    fn agree(&mut self, of: &str, proved: Answer, second: Answer) -> Result<(), Box<Disagreement>> {
        let field = proved.first_difference(&second);
        if field.is_none() && self.proved == self.second {
            return Ok(());
        }
        let what = match field {
            Some(field) => format!("{of}: `{field}` of the answers differs"),
            None => format!("{of}: the answers are the same, the images are not"),
        };
        Err(self.disagreement(what, proved, second))
    }

    /// Both agree, and yet something is not as it must be: it is told as a disagreement is.
    pub fn wrong(&mut self, what: &str, answer: Answer) -> Box<Disagreement> {
        self.disagreement(what.to_string(), answer, answer)
    }

    /// What must be so, or it is told as a disagreement is.
    pub fn demand(&mut self, is_so: bool, what: &str, answer: Answer) -> Result<(), Box<Disagreement>> {
        if is_so {
            return Ok(());
        }
        Err(self.wrong(what, answer))
    }

    /// What is told of a disagreement, with the first word that differs.
    fn disagreement(&mut self, what: String, proved: Answer, second: Answer) -> Box<Disagreement> {
        let at = (0..self.start.len()).find(|&at| self.proved[at] != self.second[at]);
        let word = at.map(|at| (at, self.proved[at], self.second[at]));
        let (start, steps) = (std::mem::take(&mut self.start), std::mem::take(&mut self.steps));
        Box::new(Disagreement { start, steps, what, proved, second, word })
    }
}

/// A copy of an image. Pages of zeros are not written: a large volume that has mostly such takes little time and memory.
pub fn copy_of(image: &[u16]) -> Vec<u16> {
    let mut copy = vec![0; image.len()];
    let written = copy.chunks_mut(PAGE).zip(image.chunks(PAGE)).filter(|(_, page)| page.iter().any(|&word| word != 0));
    written.for_each(|(to, page)| to.copy_from_slice(page));
    copy
}

/// The page and the word of a place in an image.
pub fn page_and_word(at: usize) -> (usize, usize) {
    (at / PAGE, at % PAGE)
}

#[cfg(test)]
mod tests {
    use super::*;
    use crate::script::Asked;
    use proved::{Holder, Place};

    fn formatted() -> Both {
        let mut both = Both::new(vec![0; 16 * PAGE]);
        let format = Call::Format { name: b"YARD".to_vec(), bit_page: None };
        assert!(both.call(format, &mut Tally::default()).is_ok());
        both
    }

    /// One word that differs is seen, also one that no rule looks at.
    #[test]
    fn a_word_that_differs_is_seen() {
        let mut both = formatted();
        both.second[5 * PAGE + 3] ^= 1;
        let seen = both.call(Call::Check, &mut Tally::default()).err().expect("a disagreement");
        assert_eq!(seen.word, Some((5 * PAGE + 3, 0, 1)));
        assert_eq!((seen.proved, seen.steps.len()), (seen.second, 2));
    }

    /// Answers that differ are seen, and each number of them counts.
    #[test]
    fn an_answer_that_differs_is_seen() {
        let mut both = formatted();
        both.second[1023] += 1;
        let seen = both.call(Call::WhoHolds { page: 0 }, &mut Tally::default()).err().expect("a disagreement");
        assert_eq!((seen.proved.number, seen.second.number, seen.second.rule), (0, 3, 10));
        let (one, holder) = (Answer::default(), Holder { position: 1, ..Holder::default() });
        let others = [
            (Answer { holder, ..one }, "position"),
            (Answer { offset: 1, ..one }, "offset"),
            (Answer { rule: 1, ..one }, "rule"),
            (Answer { place: Place { page: 1, word: 0 }, ..one }, "page of the place"),
            (Answer { place: Place { page: 0, word: 1 }, ..one }, "word of the place"),
            (Answer { first: holder, ..one }, "position of the first holder"),
            (Answer { second: holder, ..one }, "position of the second holder"),
        ];
        others.into_iter().for_each(|(two, name)| assert_eq!(one.first_difference(&two), Some(name)));
    }

    /// A record that differs is seen, where answers and images are the same: the two had another bit set of a page that is free.
    #[test]
    fn a_list_that_differs_is_seen() {
        let mut both = formatted();
        both.proved[8 * PAGE] |= 1 << 5;
        both.second[8 * PAGE] |= 1 << 6;
        let seen = both.call(Call::Salvage { room: 3 }, &mut Tally::default()).err().expect("a disagreement");
        assert_eq!((seen.word, seen.proved.value), (None, 1));
        assert!(seen.what.contains("change 0 of the lists differs: proved 8 0 289 257, second 8 0 321 257"), "{}", seen.what);
    }

    /// A run that leaves another word, and one that gives another reply, are seen.
    #[test]
    fn a_run_that_differs_is_seen() {
        let script = || Script::of(2, &[Call::CreateUser { name: b"DOCK".to_vec() }]);
        let mut both = formatted();
        assert!(both.run(None, script(), &mut Tally::default()).is_ok());
        let mut both = formatted();
        both.second[9 * PAGE] ^= 1;
        let seen = both.run(None, script(), &mut Tally::default()).err().expect("a disagreement");
        assert_eq!(seen.word, Some((9 * PAGE, 0, 1)));
        let mut both = formatted();
        both.second[1023] += 1;
        let seen = both.run(None, script(), &mut Tally::default()).err().expect("a disagreement");
        assert_eq!((seen.proved.number, seen.second.number, seen.second.rule), (0, 3, 10));
    }

    /// A run whose list differs is seen, where replies and images are the same; so is a single call's.
    #[test]
    fn a_list_of_a_run_that_differs_is_seen() {
        let script = || Script { room: 1, list: 2, asked: vec![Asked::Salvage] };
        let mut both = formatted();
        assert!(both.run(None, script(), &mut Tally::default()).is_ok());
        both.proved[8 * PAGE] |= 1 << 5;
        both.second[8 * PAGE] |= 1 << 6;
        let seen = both.run(None, script(), &mut Tally::default()).err().expect("a disagreement");
        assert_eq!((seen.word, seen.steps.len()), (None, 3));
        assert!(seen.what.contains("the runs: change 0 of the lists differs: proved 8 0 289 257, second 8 0 321 257"), "{}", seen.what);
        let (mut one, two) = (script().on_proved(&mut both.image().to_vec()), script().on_second(&mut both.image().to_vec()));
        one.list[1].new += 1;
        assert!(formatted().same_run("the runs", &one, &two).is_err());
    }

    #[test]
    fn restart_brings_the_first_image_back() {
        let mut both = formatted();
        both.put(&[(3, 9)]);
        both.restart();
        assert_eq!((both.image(), both.steps.len()), (&both.start[..], 0));
    }
}
