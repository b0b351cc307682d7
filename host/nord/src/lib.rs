//! NORD File System disk images from the command line. Every change of an image is made by the proved library's calls on a copy in memory,
//! and the image file is then replaced whole.

pub mod answers;
pub mod args;
pub mod broken;
pub mod chunks;
pub mod commands;
pub mod completions;
pub mod convert;
pub mod copies;
pub mod failure;
pub mod folder;
pub mod image;
pub mod legal;
mod limits;
pub mod lock;
pub mod manual;
pub mod map;
pub mod names;
pub mod output;
pub mod page;
pub mod palette;
pub mod pattern;
mod pause;
pub mod plan;
pub mod progress;
pub mod replace;
pub mod rescue;
pub mod salvage;
pub mod script;
pub mod session;
pub mod store;
pub mod swapped;
pub mod touched;
pub mod typed;
pub mod unsound;
pub mod volume;
pub mod volume_json;

use clap::Parser;
use std::io::{ErrorKind, Write};
use std::process::ExitCode;

/// Runs the command of the process's arguments and gives its exit status.
pub fn run() -> ExitCode {
    let command = match args::Cli::try_parse() {
        Ok(cli) => cli.command,
        Err(error) => return usage(error),
    };
    let json = command.json();
    let told = match commands::run(command) {
        Ok(answer) => {
            answer.warnings.iter().for_each(|words| complain(words));
            print(&answer.print(json)).map(|()| answer.status)
        }
        Err(failure) => Err(failure),
    };
    ExitCode::from(told.unwrap_or_else(|failure| failed(failure, json)))
}

/// Help and versions go to standard output with 0; a wrong use is 64, so that 2 is always the library's refusal.
fn usage(error: clap::Error) -> ExitCode {
    let _ = error.print();
    if !error.use_stderr() {
        return ExitCode::SUCCESS;
    }
    let mut words = std::env::args_os().skip(1).take_while(|word| word != "--");
    if words.any(|word| word == "--json") {
        let _ = print(&wrong_use(&error).told().line());
    }
    ExitCode::from(failure::USAGE)
}

/// What clap says of a wrong use, its first sentence.
pub fn wrong_use(error: &clap::Error) -> failure::Failure {
    let said = error.to_string();
    let first = said.split("\n\n").next().unwrap_or_default().lines().map(str::trim);
    let words = first.collect::<Vec<_>>().join(" ");
    failure::Failure::Usage(words.trim_start_matches("error: ").to_string())
}

/// Prints the answer. The work is done by then: who no longer reads does not make it fail, and another error says that it is done.
fn print(text: &str) -> Result<(), failure::Failure> {
    let mut out = std::io::stdout().lock();
    match out.write_all(text.as_bytes()).and_then(|()| out.flush()) {
        Err(error) if error.kind() != ErrorKind::BrokenPipe => Err(failure::Failure::Host(format!(
            "done, but the answer could not be printed: {error}"
        ))),
        _ => Ok(()),
    }
}

/// Says what went wrong on standard error and, with `--json`, as an object on standard output too.
fn failed(failure: failure::Failure, json: bool) -> u8 {
    let words = failure.words();
    if !words.is_empty() {
        complain(&words);
    }
    if json {
        let _ = print(&failure.told().line());
    }
    failure.status()
}

/// Says something on standard error.
fn complain(words: &str) {
    let _ = writeln!(std::io::stderr(), "nord: {words}");
}
