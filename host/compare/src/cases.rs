//! Cases: a folder for each image that is broken, or that a call refuses, with the answers that both programs must give.
//! host/cases/README.md has the format.

use crate::both::{copy_of, Answered, Both};
use crate::calls::Answer;
use crate::lists::written;
use crate::report::told;
use crate::script::Played;
use crate::tally::Tally;
use crate::text::{answer_and_changes, answer_and_changes_in_words, replies, replies_in_words, step, Step};
use crate::words::{to_bytes, PAGE};
use std::fs;
use std::path::{Path, PathBuf};

/// Runs every case of a folder, a line for each. True where all are as expected.
pub fn run(folder: &str) -> Result<bool, String> {
    let mut cases: Vec<PathBuf> =
        fs::read_dir(folder).map_err(|error| format!("{folder}: {error}"))?.flatten().map(|entry| entry.path()).collect();
    cases.retain(|path| path.is_dir());
    cases.sort();
    let mut wrong = 0;
    let mut tally = Tally::default();
    for case in &cases {
        let short = case.file_name().map_or(String::new(), |name| name.to_string_lossy().into_owned());
        match one_case(case, &mut tally) {
            Ok(words) => println!("ok     {short}: {words}"),
            Err(why) => {
                println!("WRONG  {short}: {why}");
                wrong += 1;
            }
        }
    }
    println!("answers expected, {}", tally.numbers_and_rules());
    println!("{} cases, {wrong} wrong", cases.len());
    Ok(wrong == 0 && !cases.is_empty())
}

/// One case: its words where all is as expected, else why not.
fn one_case(folder: &Path, tally: &mut Tally) -> Result<String, String> {
    let read = |name: &str| fs::read_to_string(folder.join(name)).map_err(|error| format!("{name}: {error}"));
    let (name, image, expected) = (read("name")?, read("image")?, read("expect")?);
    let mut both = make(&image)?;
    let lines = meant(&expected);
    if lines.is_empty() {
        return Err("expect says nothing".to_string());
    }
    for line in lines {
        let (asked, wanted) = line.split_once(':').ok_or_else(|| format!("expect: `{line}` has no colon"))?;
        if let Some(place) = asked.strip_prefix("word ") {
            expect_word(&both, place, wanted)?;
            continue;
        }
        if let Some(number) = asked.strip_prefix("line ") {
            expect_line(&both, number, wanted)?;
            continue;
        }
        match step(asked).map_err(|error| format!("expect: `{asked}`: {error}"))? {
            Step::Run { lent, script } => {
                lendable(&both, lent)?;
                let ran = both.run(lent, script, tally).map_err(|seen| told(&seen))?;
                expect_replies(asked, &ran.played, wanted)?;
            }
            call => expect(&mut both, asked, call, wanted, tally)?,
        }
    }
    Ok(name.trim().to_string())
}

/// The lines of a file that are neither empty nor a remark.
fn meant(text: &str) -> Vec<&str> {
    text.lines().map(str::trim).filter(|line| !line.is_empty() && !line.starts_with('#')).collect()
}

/// Makes the image of a case: its first line says how many pages, all zero; the others are steps, each of them done.
fn make(text: &str) -> Result<Both, String> {
    let lines = meant(text);
    let first = lines.first().ok_or("image is empty")?;
    let mut both = Both::new(vec![0; words_of(first)?]);
    for line in &lines[1..] {
        let (times, line) = repeated(line)?;
        for n in 0..times {
            match step(&line.replace('#', &n.to_string())).map_err(|error| format!("image: `{line}`: {error}"))? {
                Step::Word { at, value } if at < both.image().len() => both.put(&[(at, value)]),
                Step::Word { .. } => return Err(format!("image: `{line}` is not in it")),
                Step::Run { .. } => return Err(format!("image: `{line}`: a run is only expected")),
                made => done(&mut both, made, &mut Tally::default()).map_err(|error| format!("image: `{line}`: {error}"))?,
            }
        }
    }
    Ok(both)
}

/// `pages N`, or `words N` where the length is to be wrong.
fn words_of(line: &str) -> Result<usize, String> {
    let number = |text: &str| text.trim().parse::<usize>().map_err(|_| format!("image: `{line}` has no number"));
    match line.split_once(' ') {
        Some(("pages", pages)) => Ok(number(pages)? * PAGE),
        Some(("words", words)) => number(words),
        _ => Err(format!("image: `{line}` is neither `pages N` nor `words N`")),
    }
}

/// `times N STEP` is a step so often, with `#` for 0, 1, 2 and so on.
fn repeated(line: &str) -> Result<(u32, &str), String> {
    let Some(rest) = line.strip_prefix("times ") else { return Ok((1, line)) };
    let (times, line) = rest.split_once(' ').ok_or_else(|| format!("image: `{line}` has no step"))?;
    Ok((times.parse().map_err(|_| format!("image: `times {times}` is no number"))?, line))
}

fn done(both: &mut Both, made: Step, tally: &mut Tally) -> Result<(), String> {
    match ask(both, made, tally)?.call {
        Answer { number: 0, .. } => Ok(()),
        refused => Err(format!("was refused: {refused}")),
    }
}

/// A call of both programs, which must agree.
fn ask(both: &mut Both, asked: Step, tally: &mut Tally) -> Result<Answered, String> {
    let Step::Call { lent, call } = asked else { return Err("only calls are answered".to_string()) };
    lendable(both, lent)?;
    both.lend(lent, call, tally).map_err(|seen| told(&seen))
}

/// So many words can be lent.
fn lendable(both: &Both, lent: Option<usize>) -> Result<(), String> {
    match lent {
        Some(words) if words > both.image().len() => Err("so many words are not there to lend".to_string()),
        _ => Ok(()),
    }
}

/// A line of expect: the answer is as wanted, so are the changes in a list, whose other records stay, and a refused call has changed nothing.
fn expect(both: &mut Both, asked: &str, call: Step, wanted: &str, tally: &mut Tally) -> Result<(), String> {
    let (answer, changes) = answer_and_changes(wanted)?;
    let before = (answer.number != 0).then(|| copy_of(both.image()));
    let Answered { call: given, list, .. } = ask(both, call, tally)?;
    if given != answer || list.len() < changes.len() || list != written(list.len(), &changes) {
        let told = list.get(..given.value as usize).unwrap_or_default();
        return Err(format!("`{asked}` gives {},{wanted} is expected", answer_and_changes_in_words(&given, told)));
    }
    if before.is_some_and(|before| both.image() != before) {
        return Err(format!("`{asked}` was refused and changed the image"));
    }
    Ok(())
}

/// A line `run ..: REPLY ; REPLY .. | CHANGE ; CHANGE ..` of expect: so many steps are made, with these replies, and the list has these changes from
/// its beginning on; its other records stay.
fn expect_replies(asked: &str, played: &Played, wanted: &str) -> Result<(), String> {
    let (replies, changes) = replies(wanted)?;
    let has_room = changes.len() <= played.list.len();
    if played.replies[..played.made] != replies || !has_room || played.list != written(played.list.len(), &changes) {
        return Err(format!("`{asked}` gives {}, {wanted} is expected", replies_in_words(played)));
    }
    Ok(())
}

/// A line `line N: TEXT` of expect: this is the N-th line of both programs' listings of the image.
fn expect_line(both: &Both, number: &str, wanted: &str) -> Result<(), String> {
    let wrong = || format!("expect: `line {number}:{wanted}` is not `line N: TEXT`");
    let nth = number.parse::<usize>().ok().and_then(|number| number.checked_sub(1)).ok_or_else(wrong)?;
    for listing in [proved::list(both.image()), second::list(&to_bytes(both.image()))] {
        let listing = String::from_utf8_lossy(&listing).into_owned();
        let line = listing.lines().nth(nth).unwrap_or("none");
        if line != wanted.trim() {
            return Err(format!("line {number} of the listing is `{line}`,{wanted} is expected"));
        }
    }
    Ok(())
}

/// A line `word PAGE WORD: VALUE` of expect: the image has this word there.
fn expect_word(both: &Both, place: &str, wanted: &str) -> Result<(), String> {
    let wrong = || format!("expect: `word {place}:{wanted}` is not `word PAGE WORD: VALUE`");
    let numbers: Vec<usize> = place.split_whitespace().chain([wanted.trim()]).flat_map(str::parse).collect();
    let [page, word, value] = numbers[..] else { return Err(wrong()) };
    let found = both.image().get(page * PAGE + word).ok_or_else(wrong)?;
    if usize::from(*found) != value {
        return Err(format!("page {page} word {word} is {found}, {value} is expected"));
    }
    Ok(())
}
