//! The lines of a script, each a command without `nord` and without the image.

use crate::args::{Cli, Command};
use crate::failure::{of_file, Failure, Line};
use clap::Parser;
use std::ffi::OsString;
use std::io::Read;
use std::path::Path;

/// A line with its words.
pub struct Words {
    pub line: Line,
    words: Vec<String>,
}

/// The largest script that is read.
const MOST: u64 = 64 << 20;

/// The lines of a file, or of standard input, that are not empty.
pub fn read(path: Option<&Path>) -> Result<Vec<Words>, Failure> {
    let path = path.filter(|path| *path != Path::new("-"));
    let name = path.map_or("standard input".to_string(), |path| path.display().to_string());
    let mut bytes = Vec::new();
    match path {
        Some(path) => std::fs::File::open(path).and_then(|file| file.take(MOST).read_to_end(&mut bytes)),
        None => std::io::stdin().lock().take(MOST).read_to_end(&mut bytes),
    }
    .map_err(of_file(Path::new(&name)))?;
    let text = String::from_utf8(bytes).map_err(|_| Failure::Usage(format!("{name}: is no text")))?;
    let lines = text.lines().enumerate().map(|(at, line)| words(&name, at + 1, line));
    let lines: Result<Vec<Words>, Failure> = lines.collect();
    Ok(lines?.into_iter().filter(|line| !line.words.is_empty()).collect())
}

/// A line with its number.
fn words(script: &str, number: usize, text: &str) -> Result<Words, Failure> {
    let line = Line {
        script: script.to_string(),
        line: number,
        text: text.trim().to_string(),
    };
    match split(text) {
        Some(words) => Ok(Words { line, words }),
        None => Err(failed(&line, Failure::Usage("a quotation mark is not closed".to_string()))),
    }
}

/// What went wrong in a line.
pub fn failed(line: &Line, failure: Failure) -> Failure {
    Failure::Line(line.clone(), Box::new(failure))
}

impl Words {
    /// The command of the line on this image.
    pub fn command(&self, image: &Path, json: bool) -> Result<Command, Failure> {
        let first = match self.words.first().map(String::as_str) {
            Some("user" | "file") => 2,
            _ => 1,
        };
        let mut words: Vec<OsString> = vec!["nord".into()];
        let (command, rest) = self.words.split_at(first.min(self.words.len()));
        words.extend(command.iter().map(OsString::from));
        words.push(image.into());
        words.extend(rest.iter().map(OsString::from));
        words.extend(json.then(|| OsString::from("--json")));
        match Cli::try_parse_from(words) {
            Ok(cli) => self.allowed(cli.command),
            Err(error) => Err(failed(&self.line, crate::wrong_use(&error))),
        }
    }

    /// A command that has a place among lines on one image.
    fn allowed(&self, command: Command) -> Result<Command, Failure> {
        let wrong = |words: &str| Err(failed(&self.line, Failure::Usage(words.to_string())));
        match &command {
            Command::Sample(_) | Command::Run(_) | Command::Manual | Command::Completions { .. } => {
                wrong("no line of a script: it does not work on the image")
            }
            Command::Format { pages: Some(_), .. } => wrong("--pages makes a new image, and the lines are run on one that is there"),
            Command::Read { output, .. } if output.as_deref().is_none_or(|path| path == Path::new("-")) => {
                wrong("read in a script needs a host's file")
            }
            Command::Write { input, .. } if input == Path::new("-") => wrong("write in a script needs a host's file"),
            _ => Ok(command),
        }
    }
}

/// The words of a line, as a shell has them: parted by spaces, quotation marks keep together, a backslash keeps the next letter, # begins a comment
/// where a word could begin. Nothing where a quotation mark is not closed.
fn split(text: &str) -> Option<Vec<String>> {
    let (mut words, mut word, mut quote): (Vec<String>, Option<String>, Option<char>) = (Vec::new(), None, None);
    let mut letters = text.chars();
    while let Some(letter) = letters.next() {
        match (letter, quote) {
            (_, Some(mark)) if letter == mark => quote = None,
            ('\\', None | Some('"')) => word.get_or_insert_default().extend(letters.next()),
            (_, Some(_)) => word.get_or_insert_default().push(letter),
            ('\'' | '"', None) => {
                word.get_or_insert_default();
                quote = Some(letter);
            }
            ('#', None) if word.is_none() => break,
            _ if letter.is_whitespace() => words.extend(word.take()),
            _ => word.get_or_insert_default().push(letter),
        }
    }
    words.extend(word);
    quote.is_none().then_some(words)
}

#[cfg(test)]
mod tests {
    use super::split;

    #[test]
    fn words_of_a_line() {
        let words = |text: &str| split(text).unwrap_or_default();
        assert_eq!(words("user add FLOCK"), ["user", "add", "FLOCK"]);
        assert_eq!(
            words("  write\tDOCK/A:B 'my file.txt'  # comment"),
            ["write", "DOCK/A:B", "my file.txt"]
        );
        assert_eq!(words("a\"b c\"d e\\ f ''"), ["ab cd", "e f", ""]);
        assert_eq!(words("'it''s' a#b \"\\\"\""), ["its", "a#b", "\""]);
        assert!(words("# nothing").is_empty() && words("").is_empty());
        assert!(split("write 'open").is_none());
    }
}
