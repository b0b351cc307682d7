//! `changes BASE` prints what moved between a commit and the working tree, as Markdown.

use changes::landing::Landing;
use changes::page::markdown;
use std::io;
use std::path::Path;
use std::process::ExitCode;

const USE: &str = "changes BASE: what moved between the commit BASE and the working tree around this folder, as Markdown";

fn main() -> ExitCode {
    let arguments: Vec<String> = std::env::args().skip(1).collect();
    let done = match &arguments[..] {
        [help] if help == "--help" => Ok(USE.to_string() + "\n"),
        [base] => Landing::since(base, Path::new(".")).map(|landing| markdown(&landing)),
        _ => Err(io::Error::other(USE)),
    };
    match done {
        Ok(text) => {
            print!("{text}");
            ExitCode::SUCCESS
        }
        Err(error) => {
            eprintln!("changes: {error}");
            ExitCode::FAILURE
        }
    }
}
