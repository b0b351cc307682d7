//! Steps as lines of text: what a case's file `image` is written in, and what a disagreement is told and kept in. host/cases/README.md has
//! the forms.

use crate::calls::{Answer, Call, Data};
use crate::lists::{in_words, touched};
use crate::script::{Asked, Part, Played, Script};
use crate::words::PAGE;
use proved::{Change, Holder, Place};
use std::fmt;
use std::str::FromStr;

/// One thing done to an image.
#[derive(Clone, Debug, PartialEq)]
pub enum Step {
    /// A call; where `lent` is there, only so many words of the image are lent to it.
    Call { lent: Option<usize>, call: Call },
    /// A list of calls by one run.
    Run { lent: Option<usize>, script: Script },
    /// A word of the image is set.
    Word { at: usize, value: u16 },
}

/// Reads a step, or says what is wrong with its line.
pub fn step(line: &str) -> Result<Step, String> {
    let mut words = Words::of(line)?;
    let first = words.next()?;
    let read = match first.as_str() {
        "word" => {
            let (page, word): (usize, usize) = (words.number()?, words.number()?);
            Step::Word { at: page * PAGE + word, value: words.number()? }
        }
        "lend" => {
            let lent = Some(words.number()?);
            let name = words.next()?;
            call_or_run(&name, lent, &mut words)?
        }
        name => call_or_run(name, None, &mut words)?,
    };
    words.end()?;
    Ok(read)
}

fn call_or_run(name: &str, lent: Option<usize>, words: &mut Words) -> Result<Step, String> {
    Ok(match name {
        "run" => Step::Run { lent, script: script(words)? },
        name => Step::Call { lent, call: call(name, words)? },
    })
}

/// The room for replies, the room for changes if there is a list, and the steps with `;` between them.
fn script(words: &mut Words) -> Result<Script, String> {
    let room = words.number()?;
    let list = match words.peek().as_deref() {
        Some("list") => {
            words.next()?;
            words.number()?
        }
        _ => 0,
    };
    let asked = words.parts().into_iter().map(asked).collect::<Result<Vec<Asked>, String>>()?;
    Ok(Script { room, list, asked })
}

/// A step of a script: a call, one with a number that is none's, or one with a part that ends so far outside. A salvage has the script's list, and
/// no room of its own.
fn asked(mut words: Words) -> Result<Asked, String> {
    let read = match words.next()?.as_str() {
        "no-call" => {
            let (number, name) = (words.number()?, words.next()?);
            Asked::NoCall { number, call: call(&name, &mut words)? }
        }
        "outside" => {
            let (part, past, name) = (words.next()?, words.number()?, words.next()?);
            let part = Part::ALL.into_iter().find(|other| other.name() == part).ok_or_else(|| format!("{part} is no part"))?;
            Asked::Outside { part, past, call: call(&name, &mut words)? }
        }
        "salvage" => Asked::Salvage,
        name => Asked::Call(call(name, &mut words)?),
    };
    words.end()?;
    Ok(read)
}

fn call(name: &str, words: &mut Words) -> Result<Call, String> {
    Ok(match name {
        "check" => Call::Check,
        "find-user" => Call::FindUser { name: words.bytes()? },
        "find-file" => Call::FindFile { user: words.number()?, name: words.bytes()?, kind: words.bytes()? },
        "address" => Call::Address { user: words.number()?, file: words.number()?, position: words.number()? },
        "holds" => Call::WhoHolds { page: words.number()? },
        "read" => Call::ReadPage { user: words.number()?, file: words.number()?, position: words.number()? },
        "format" => Call::Format { name: words.bytes()?, bit_page: words.optional()? },
        "user" => Call::CreateUser { name: words.bytes()? },
        "delete-user" => Call::DeleteUser { user: words.number()? },
        "give" => Call::Give { user: words.number()?, count: words.number()? },
        "take" => Call::Take { user: words.number()?, count: words.number()? },
        "indexed" => {
            let (user, name, kind) = (words.number()?, words.bytes()?, words.bytes()?);
            Call::CreateIndexed { user, name, kind, created: words.optional()?.unwrap_or(0) }
        }
        "contiguous" => {
            let (user, name, kind, count) = (words.number()?, words.bytes()?, words.bytes()?, words.number()?);
            Call::CreateContiguous { user, name, kind, count, created: words.optional()?.unwrap_or(0) }
        }
        "grow" => Call::Grow { user: words.number()?, file: words.number()? },
        "shrink" => Call::Shrink { user: words.number()?, file: words.number()? },
        "delete-file" => Call::DeleteFile { user: words.number()?, file: words.number()? },
        "write" => {
            let (user, file, position) = (words.number()?, words.number()?, words.number()?);
            let data = Data { first: words.number()?, length: words.optional()?.unwrap_or(PAGE) };
            Call::WritePage { user, file, position, data }
        }
        "open" => Call::NoteOpen { user: words.number()?, file: words.number()? },
        "convert-to-apostrophe" => Call::ConvertToApostrophe,
        "convert-to-zeros" => Call::ConvertToZeros,
        "salvage" => Call::Salvage { room: words.number()? },
        other => return Err(format!("{other} is no call")),
    })
}

/// Reads an answer: a number, then names with their numbers: a place has its page and word, a holder its kind, user, file and position, all
/// else one number. What is not named is 0.
pub fn answer(line: &str) -> Result<Answer, String> {
    let mut words = Words::of(line)?;
    let mut answer = Answer { number: words.number()?, ..Answer::default() };
    while let Some(name) = words.peek() {
        words.next()?;
        match name.as_str() {
            "rule" => answer.rule = words.number()?,
            "value" => answer.value = words.number()?,
            "place" => answer.place = Place { page: words.number()?, word: words.number()? },
            "first" => answer.first = holder(&mut words)?,
            "second" => answer.second = holder(&mut words)?,
            "holder" => answer.holder = holder(&mut words)?,
            "offset" => answer.offset = words.number()?,
            "length" => answer.length = words.number()?,
            other => return Err(format!("{other} is no number of an answer")),
        }
    }
    Ok(answer)
}

fn holder(words: &mut Words) -> Result<Holder, String> {
    Ok(Holder { kind: words.number()?, user: words.number()?, file: words.number()?, position: words.number()? })
}

/// An answer, and then, each behind a `;`, the changes that a salvage wrote to its list.
pub fn answer_and_changes(line: &str) -> Result<(Answer, Vec<Change>), String> {
    let mut parts = line.split(';');
    let first = answer(parts.next().unwrap_or(""))?;
    Ok((first, parts.map(change).collect::<Result<Vec<Change>, String>>()?))
}

fn change(line: &str) -> Result<Change, String> {
    let mut words = Words::of(line)?;
    let change = Change { page: words.number()?, word: words.number()?, old: words.number()?, new: words.number()? };
    words.end()?;
    Ok(change)
}

/// An answer and some changes, as `answer_and_changes` reads them.
pub fn answer_and_changes_in_words(answer: &Answer, changes: &[Change]) -> String {
    let changes: Vec<String> = changes.iter().map(|change| format!(" ; {}", in_words(change))).collect();
    format!("{answer}{}", changes.concat())
}

/// The replies of a run: its answers with `;` between them, `none` where no step was made; and then, behind a `|` and with `;` between them, the
/// changes that it wrote to its list.
pub fn replies(line: &str) -> Result<(Vec<Answer>, Vec<Change>), String> {
    let (line, changes) = match line.split_once('|') {
        Some((line, changes)) => (line, changes.split(';').map(change).collect::<Result<Vec<Change>, String>>()?),
        None => (line, Vec::new()),
    };
    let replies = match line.trim() {
        "none" => Vec::new(),
        line => line.split(';').map(answer).collect::<Result<Vec<Answer>, String>>()?,
    };
    Ok((replies, changes))
}

/// The replies that a run has written, and the part of its list that is not as it was lent, as `replies` reads them.
pub fn replies_in_words(played: &Played) -> String {
    let written: Vec<String> = played.replies.iter().take(played.made).map(Answer::to_string).collect();
    let replies = if written.is_empty() { "none".to_string() } else { written.join(" ; ") };
    let changes: Vec<String> = touched(&played.list).iter().map(in_words).collect();
    match changes.is_empty() {
        true => replies,
        false => format!("{replies} | {}", changes.join(" ; ")),
    }
}

/// The words of a line, in the order they are read.
struct Words {
    left: Vec<String>,
}

impl Words {
    fn of(line: &str) -> Result<Words, String> {
        let left: Vec<String> = line.split_whitespace().rev().map(str::to_string).collect();
        if left.is_empty() {
            return Err("the line is empty".to_string());
        }
        Ok(Words { left })
    }

    fn peek(&self) -> Option<String> {
        self.left.last().cloned()
    }

    fn next(&mut self) -> Result<String, String> {
        self.left.pop().ok_or_else(|| "something is missing at the end".to_string())
    }

    /// What is left, in parts with `;` between them; nothing is no part.
    fn parts(&mut self) -> Vec<Words> {
        let left: Vec<String> = std::mem::take(&mut self.left).into_iter().rev().collect();
        let parts = left.split(|word| word == ";").filter(|_| !left.is_empty());
        parts.map(|part| Words { left: part.iter().rev().cloned().collect() }).collect()
    }

    fn end(&self) -> Result<(), String> {
        self.peek().map_or(Ok(()), |rest| Err(format!("{rest} is too much")))
    }

    /// A number as wide as it is wanted.
    fn number<N: FromStr>(&mut self) -> Result<N, String> {
        let word = self.next()?;
        word.parse().map_err(|_| format!("{word} is no number"))
    }

    fn optional<N: FromStr>(&mut self) -> Result<Option<N>, String> {
        self.peek().map_or(Ok(None), |_| self.number().map(Some))
    }

    /// A name or type: its bytes, `\xHH` for one that does not print, `""` for none.
    fn bytes(&mut self) -> Result<Vec<u8>, String> {
        let word = self.next()?;
        if word == "\"\"" {
            return Ok(Vec::new());
        }
        let mut parts = word.split("\\x");
        let mut bytes = parts.next().unwrap_or("").as_bytes().to_vec();
        for part in parts {
            let code = part.get(..2).ok_or_else(|| format!("{word} has half a byte"))?;
            bytes.push(u8::from_str_radix(code, 16).map_err(|_| format!("{word} has a wrong byte"))?);
            bytes.extend_from_slice(&part.as_bytes()[2..]);
        }
        Ok(bytes)
    }
}

/// Bytes as `Words::bytes` reads them.
struct Shown<'a>(&'a [u8]);

impl fmt::Display for Shown<'_> {
    fn fmt(&self, out: &mut fmt::Formatter) -> fmt::Result {
        if self.0.is_empty() {
            return out.write_str("\"\"");
        }
        for &byte in self.0 {
            if byte.is_ascii_graphic() && !b"\\\";".contains(&byte) {
                write!(out, "{}", char::from(byte))?;
            } else {
                write!(out, "\\x{byte:02X}")?;
            }
        }
        Ok(())
    }
}

impl fmt::Display for Step {
    fn fmt(&self, out: &mut fmt::Formatter) -> fmt::Result {
        match self {
            Step::Word { at, value } => write!(out, "word {} {} {value}", at / PAGE, at % PAGE),
            Step::Call { lent: Some(words), call } => write!(out, "lend {words} {call}"),
            Step::Call { lent: None, call } => write!(out, "{call}"),
            Step::Run { lent: Some(words), script } => write!(out, "lend {words} {script}"),
            Step::Run { lent: None, script } => write!(out, "{script}"),
        }
    }
}

impl fmt::Display for Script {
    fn fmt(&self, out: &mut fmt::Formatter) -> fmt::Result {
        write!(out, "run {}", self.room)?;
        if self.list > 0 {
            write!(out, " list {}", self.list)?;
        }
        for (n, asked) in self.asked.iter().enumerate() {
            write!(out, "{}{asked}", if n == 0 { " " } else { " ; " })?;
        }
        Ok(())
    }
}

impl fmt::Display for Asked {
    fn fmt(&self, out: &mut fmt::Formatter) -> fmt::Result {
        match self {
            Asked::Call(call) => write!(out, "{call}"),
            Asked::Salvage => write!(out, "salvage"),
            Asked::NoCall { number, call } => write!(out, "no-call {number} {call}"),
            Asked::Outside { part, past, call } => write!(out, "outside {} {past} {call}", part.name()),
        }
    }
}

impl fmt::Display for Call {
    fn fmt(&self, out: &mut fmt::Formatter) -> fmt::Result {
        match self {
            Call::Check => write!(out, "check"),
            Call::FindUser { name } => write!(out, "find-user {}", Shown(name)),
            Call::FindFile { user, name, kind } => write!(out, "find-file {user} {} {}", Shown(name), Shown(kind)),
            Call::Address { user, file, position } => write!(out, "address {user} {file} {position}"),
            Call::WhoHolds { page } => write!(out, "holds {page}"),
            Call::ReadPage { user, file, position } => write!(out, "read {user} {file} {position}"),
            Call::Format { name, bit_page: Some(page) } => write!(out, "format {} {page}", Shown(name)),
            Call::Format { name, bit_page: None } => write!(out, "format {}", Shown(name)),
            Call::CreateUser { name } => write!(out, "user {}", Shown(name)),
            Call::DeleteUser { user } => write!(out, "delete-user {user}"),
            Call::Give { user, count } => write!(out, "give {user} {count}"),
            Call::Take { user, count } => write!(out, "take {user} {count}"),
            Call::CreateIndexed { user, name, kind, created } => {
                write!(out, "indexed {user} {} {} {created}", Shown(name), Shown(kind))
            }
            Call::CreateContiguous { user, name, kind, created, count } => {
                write!(out, "contiguous {user} {} {} {count} {created}", Shown(name), Shown(kind))
            }
            Call::Grow { user, file } => write!(out, "grow {user} {file}"),
            Call::Shrink { user, file } => write!(out, "shrink {user} {file}"),
            Call::DeleteFile { user, file } => write!(out, "delete-file {user} {file}"),
            Call::WritePage { user, file, position, data } => {
                write!(out, "write {user} {file} {position} {} {}", data.first, data.length)
            }
            Call::NoteOpen { user, file } => write!(out, "open {user} {file}"),
            Call::ConvertToApostrophe => write!(out, "convert-to-apostrophe"),
            Call::ConvertToZeros => write!(out, "convert-to-zeros"),
            Call::Salvage { room } => write!(out, "salvage {room}"),
        }
    }
}

/// An answer as `answer` reads it.
impl fmt::Display for Answer {
    fn fmt(&self, out: &mut fmt::Formatter) -> fmt::Result {
        write!(out, "{}", self.number)?;
        let mut named = |name: &str, numbers: &[usize]| match numbers.iter().all(|&number| number == 0) {
            true => Ok(()),
            false => {
                write!(out, " {name}")?;
                numbers.iter().try_for_each(|number| write!(out, " {number}"))
            }
        };
        let of = |holder: Holder| [holder.kind, holder.user, holder.file, holder.position].map(|number| number as usize);
        named("rule", &[self.rule as usize])?;
        named("value", &[self.value as usize])?;
        named("place", &[self.place.page as usize, self.place.word as usize])?;
        named("first", &of(self.first))?;
        named("second", &of(self.second))?;
        named("holder", &of(self.holder))?;
        named("offset", &[self.offset])?;
        named("length", &[self.length])
    }
}

#[cfg(test)]
mod tests {
    use super::{answer, answer_and_changes, answer_and_changes_in_words, replies, replies_in_words, step, Played};
    use crate::lists::written;

    /// What is kept of a disagreement is read again as it was.
    #[test]
    fn lines_are_read_as_they_are_written() {
        let lines = [
            "word 7 1023 65535",
            "lend 7168 check",
            "find-user \"\"",
            "find-file 256 A\\x00\\xC1 \\x22",
            "address 0 1 4294967295",
            "holds 16",
            "read 1 2 3",
            "format YARD 77",
            "format YARD",
            "user N-1",
            "delete-user 64",
            "give 0 16385",
            "take 0 1",
            "indexed 0 READS DATA 7",
            "contiguous 0 RUN \"\" 10 7",
            "grow 0 0",
            "shrink 0 0",
            "delete-file 0 0",
            "write 0 0 0 5 1023",
            "open 0 0",
            "convert-to-apostrophe",
            "lend 8191 convert-to-zeros",
            "salvage 520",
            "lend 7168 salvage 0",
            "give 4294967297 1",
            "run 3",
            "run 3 user A\\x3B ; give 0 5 ; no-call 16 grow 0 0 ; outside name 1 find-user A ; write 0 0 0 5 1024",
            "lend 7168 run 0 format YARD ; format YARD 7",
            "run 3 convert-to-apostrophe ; check ; no-call 23 convert-to-zeros",
            "run 3 holds 7 ; read 0 0 1 ; salvage ; no-call 54 salvage 0",
            "run 2 list 9 salvage ; check",
            "lend 7168 run 2 list 1",
        ];
        for line in lines {
            assert_eq!(step(line).map(|step| step.to_string()), Ok(line.to_string()));
        }
    }

    #[test]
    fn wrong_lines_are_no_steps() {
        let calls = [
            "",
            "grow 0",
            "grow 0 0 0",
            "word 0 0 65536",
            "user A\\xG0",
            "user A\\x4",
            "nothing",
            "convert-to-zeros 0",
            "salvage",
            "salvage 1 1",
        ];
        for wrong in calls.into_iter().chain(["run", "run 1 ;", "run 1 outside", "run 1 list", "run 1 list salvage", "run 1 salvage 2"]) {
            assert!(step(wrong).is_err(), "{wrong}");
        }
    }

    #[test]
    fn replies_are_read_as_they_are_written() {
        let lines = ["none", "0", "0 ; 0 value 5 ; 3 rule 10 place 0 1022", "0 first 10 1 2 3", "0 value 2 ; 0 | 2 17 3 2 ; 8 0 351 383"];
        for line in lines {
            let (replies, changes) = replies(line).expect("replies");
            assert_eq!(replies_in_words(&Played { made: replies.len(), replies, list: written(4, &changes) }), line);
        }
        for wrong in ["", "0 |", "0 | 2 17 3", "0 ; ", "0 | 2 17 3 2 ; "] {
            assert!(replies(wrong).is_err(), "{wrong}");
        }
    }

    #[test]
    fn changes_are_read_as_they_are_written() {
        for line in ["0", "14", "0 value 2 ; 2 17 3 2 ; 8 0 351 383"] {
            let (answer, changes) = answer_and_changes(line).expect("an answer and changes");
            assert_eq!(answer_and_changes_in_words(&answer, &changes), line);
        }
        for wrong in ["0 ;", "0 value 1 ; 2 17 3", "0 value 1 ; 2 17 3 2 1", ""] {
            assert!(answer_and_changes(wrong).is_err(), "{wrong}");
        }
    }

    #[test]
    fn answers_are_read_as_they_are_written() {
        let lines = [
            "0",
            "3 rule 10 place 2 16",
            "3 rule 8 place 6 0 first 9 0 0 0 second 10 0 0 5",
            "0 value 5",
            "0 holder 10 1 2 3",
            "0 offset 5120 length 1024",
        ];
        for line in lines {
            assert_eq!(answer(line).map(|answer| answer.to_string()), Ok(line.to_string()));
        }
        for wrong in ["0 visits 3", "3 rule 1 place 0", "0 holder 10 1 2"] {
            assert!(answer(wrong).is_err(), "{wrong}");
        }
    }
}
