//! `turns BEFORE.so AFTER.so` times the check of two builds of the library and counts its instructions, as Markdown.

use bench::fill::with_zeros;
use bench::scratch::Scratch;
use bench::{callgrind, parts};
use std::io;
use std::path::Path;
use std::process::ExitCode;
use turns::library::Library;
use turns::measure::{measure, once, Plan};
use turns::page;

const USE: &str = "turns [--quick] BEFORE.so AFTER.so   times the check of two builds of the library in turns, as Markdown
turns once LIBRARY.so IMAGE N        checks an image, in this machine's byte order, N times, for callgrind";

/// Measures all volumes.
fn run(before: &str, after: &str, plan: &Plan) -> io::Result<String> {
    if !callgrind::is_there() {
        return Err(io::Error::other(
            "valgrind is not there (Debian's package valgrind): instructions cannot be counted",
        ));
    }
    let machine = page::machine();
    let both = [Library::load(Path::new(before))?, Library::load(Path::new(after))?];
    let scratch = Scratch::new()?;
    let mut all = Vec::new();
    for volume in parts::volumes(plan.large).map(with_zeros) {
        eprintln!("turns: {}: {}", volume.name, volume.about);
        let image = scratch.native_volume(&volume)?;
        all.push(measure(&both, &volume, &image, plan.effort)?);
    }
    Ok(page::markdown(&machine, &all))
}

fn main() -> ExitCode {
    let arguments: Vec<String> = std::env::args().skip(1).collect();
    let arguments: Vec<&str> = arguments.iter().map(String::as_str).collect();
    let wrong = || io::Error::other(USE);
    let done = match arguments[..] {
        ["--help"] => Ok(USE.to_string() + "\n"),
        ["once", library, image, times] => times
            .parse()
            .map_err(|_| wrong())
            .and_then(|times| once(Path::new(library), Path::new(image), times))
            .map(|()| String::new()),
        ["--quick", before, after] => run(before, after, &Plan::quick()),
        [before, after] => run(before, after, &Plan::thorough()),
        _ => Err(wrong()),
    };
    match done {
        Ok(text) => {
            print!("{text}");
            ExitCode::SUCCESS
        }
        Err(error) => {
            eprintln!("turns: {error}");
            ExitCode::FAILURE
        }
    }
}
