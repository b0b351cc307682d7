//! `bench` runs all benchmarks and prints their tables; `--quick` only sees that everything works. The other forms are its own children.

use bench::calls::{Call, Program};
use bench::parts::{self, run, Plan};
use bench::scratch::{write_house, write_native};
use bench::volumes::LARGE_VOLUME;
use bench::{children, machine};
use std::io;
use std::path::Path;
use std::process::ExitCode;

const USE: &str = "bench [--quick] [--output FILE.md]
bench searches                   the part on volumes that are nearly full, alone
bench salvage                    the part on salvage, alone
bench beside                     the parts on e2fsck and mcopy, alone
bench packs                      the part on packs of 37,035 and 140,733 pages, alone
bench machine                    the machine and the tools
bench volumes FOLDER             writes the volumes there, for the next three
bench check-file IMAGE           a process that reads and checks an image, high byte first
bench check-mapped IMAGE         the same of an image in this machine's byte order, mapped
bench salvage-mapped IMAGE       a process that salvages an image in this machine's byte order in place, mapped
bench once CALL IMAGE proved|second N   asks a call N times (at most 11) of an image, for callgrind";

/// Writes the measured volumes in both byte orders, with what is asked of them.
fn write_volumes(folder: &str) -> io::Result<()> {
    std::fs::create_dir_all(folder)?;
    for volume in parts::volumes(LARGE_VOLUME) {
        write_house(Path::new(folder), &volume.name, &volume.words)?;
        write_native(Path::new(folder), &volume.name, &volume.words, &volume.question)?;
    }
    Ok(())
}

/// Runs the benchmarks and writes the tables where it was told to.
fn measure(arguments: &[&str]) -> io::Result<()> {
    let plan = if arguments.contains(&"--quick") {
        Plan::quick()
    } else {
        Plan::thorough()
    };
    let output = arguments
        .iter()
        .position(|&argument| argument == "--output")
        .and_then(|n| arguments.get(n + 1));
    let report = run(plan)?;
    output.map_or(Ok(()), |path| std::fs::write(path, report.as_markdown()))
}

fn verdict(number: u32) -> io::Result<()> {
    match number {
        0 => Ok(()),
        number => Err(io::Error::other(format!("REFUSED {number}"))),
    }
}

fn once(call: &str, image: &str, program: &str, times: &str) -> io::Result<()> {
    let wrong = || io::Error::other(USE);
    let call = Call::by_name(call).ok_or_else(wrong)?;
    let program = Program::by_name(program).ok_or_else(wrong)?;
    let times = times.parse().ok().filter(|&times| times <= children::COPIES).ok_or_else(wrong)?;
    children::once(call, Path::new(image), program, times)
}

fn main() -> ExitCode {
    let arguments: Vec<String> = std::env::args().skip(1).collect();
    let arguments: Vec<&str> = arguments.iter().map(String::as_str).collect();
    let done = match arguments[..] {
        ["--help"] => {
            println!("{USE}");
            Ok(())
        }
        ["machine"] => {
            print!("{}", machine::table().as_text());
            Ok(())
        }
        ["searches"] => parts::run_searches(Plan::thorough()).map(drop),
        ["salvage"] => parts::run_salvage(Plan::thorough()).map(drop),
        ["beside"] => parts::run_beside(Plan::thorough()).map(drop),
        ["packs"] => parts::run_packs(Plan::thorough()).map(drop),
        ["volumes", folder] => write_volumes(folder),
        ["check-file", image] => children::check_file(Path::new(image)).and_then(verdict),
        ["check-mapped", image] => children::check_mapped(Path::new(image)).and_then(verdict),
        ["salvage-mapped", image] => children::salvage_mapped(Path::new(image)).and_then(verdict),
        ["once", call, image, program, times] => once(call, image, program, times),
        [] | ["--quick"] | ["--output", _] | ["--quick", "--output", _] => measure(&arguments),
        _ => Err(io::Error::other(USE)),
    };
    match done {
        Ok(()) => ExitCode::SUCCESS,
        Err(error) => {
            eprintln!("bench: {error}");
            ExitCode::FAILURE
        }
    }
}
