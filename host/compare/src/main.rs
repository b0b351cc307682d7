//! Compares the proved library with the second program: every answer and every word, after every call.

mod aimed;
mod asking_scripts;
mod both;
mod calls;
mod cases;
mod choose;
mod convert_rounds;
mod converts;
mod cycle;
mod damage;
mod damaged_rounds;
mod edges;
mod fills;
mod high_rounds;
mod lent;
mod lists;
mod meets;
mod name_rounds;
mod names;
mod pack_rounds;
mod packs;
mod patterns;
mod random;
mod report;
mod rounds;
mod run;
mod salvage_rounds;
mod salvage_scripts;
mod salvaged;
mod salvages;
mod scattered;
mod scene;
mod script;
mod script_rounds;
mod search_rounds;
mod searched;
mod spots;
mod stale;
mod steps;
mod tally;
mod text;
mod there_and_back;
mod twice;
mod volumes;
mod words;

use run::{Plan, Until};
use std::process::ExitCode;
use std::time::{Duration, SystemTime, UNIX_EPOCH};

const HELP: &str = "\
compare: the proved library against the second program, every answer and every word after every call

    compare [--seed N] [--first N] [--seconds S | --rounds N | --damaged N]
    compare --short
    compare [--seed N] [--first N] --there-and-back N
    compare [--seed N] [--first N] --salvaged N
    compare --cases FOLDER
    compare --replay FOLDER

  --seed N         the run's seed; the same seed gives the same run on any machine (without it, by the clock)
  --first N        begin with round N (a round of its own begins from the seed and its number alone)
  --seconds S      go on so long, but for one cycle of rounds at least (without it, one cycle)
  --rounds N       so many rounds
  --damaged N      go on until so many damaged images agreed, but for one cycle of rounds at least
  --short          two cycles with seed 1, as the gate runs it
  --there-and-back N
                   no rounds, but so many volumes converted there and back: done both times, no other words changed between than those
                   of names and types, and the same words in the end; --first is the number of the first volume
  --salvaged N     no rounds, but so many damaged images salvaged, bits and counts of theirs stale by chance: each changed word is told, no
                   other changes, the image is sound then and as it was before the damage, and a second salvage tells of nothing; or it
                   is refused as it must be, with nothing changed; --first is the number of the first volume, of which 20 images are made
  --cases FOLDER   run every case in the folder through both (host/cases/README.md)
  --replay FOLDER  go through a kept disagreement again

Exit status: 0 where all agreed and every minimum was met, 1 where not, 2 where the arguments are wrong.
";

/// What the arguments ask for.
enum Asked {
    Help,
    Run(Plan),
    ThereAndBack { volumes: u64, seed: u64, first: u64 },
    Salvaged { images: u64, seed: u64, first: u64 },
    Cases(String),
    Replay(String),
}

fn main() -> ExitCode {
    let asked = match read_arguments(std::env::args().skip(1)) {
        Ok(asked) => asked,
        Err(wrong) => {
            eprintln!("compare: {wrong}; see compare --help");
            return ExitCode::from(2);
        }
    };
    let done = match asked {
        Asked::Help => {
            print!("{HELP}");
            Ok(true)
        }
        Asked::Run(plan) => Ok(run::run(&plan)),
        Asked::ThereAndBack { volumes, seed, first } => Ok(there_and_back::run(seed, first, volumes)),
        Asked::Salvaged { images, seed, first } => Ok(salvaged::run(seed, first, images)),
        Asked::Cases(folder) => cases::run(&folder),
        Asked::Replay(folder) => report::replay(&folder),
    };
    match done {
        Ok(true) => ExitCode::SUCCESS,
        Ok(false) => ExitCode::from(1),
        Err(wrong) => {
            eprintln!("compare: {wrong}");
            ExitCode::from(2)
        }
    }
}

fn read_arguments(mut arguments: impl Iterator<Item = String>) -> Result<Asked, String> {
    let (mut seed, mut first, mut until) = (None, 0, Until::Cycles(1));
    let (mut there_and_back, mut salvaged) = (None, None);
    while let Some(argument) = arguments.next() {
        let mut value = || arguments.next().ok_or(format!("{argument} wants a value"));
        match argument.as_str() {
            "--help" | "-h" => return Ok(Asked::Help),
            "--short" => (seed, until) = (Some(1), Until::Cycles(2)),
            "--seed" => seed = Some(number(&value()?)?),
            "--first" => first = number(&value()?)?,
            "--seconds" => until = Until::Time(Duration::from_secs(number(&value()?)?)),
            "--rounds" => until = Until::Rounds(number(&value()?)?),
            "--damaged" => until = Until::Damaged(number(&value()?)?),
            "--there-and-back" => there_and_back = Some(number(&value()?)?),
            "--salvaged" => salvaged = Some(number(&value()?)?),
            "--cases" => return Ok(Asked::Cases(value()?)),
            "--replay" => return Ok(Asked::Replay(value()?)),
            other => return Err(format!("{other} is no argument")),
        }
    }
    let seed = seed.unwrap_or_else(seed_by_clock);
    Ok(match (there_and_back, salvaged) {
        (Some(volumes), _) => Asked::ThereAndBack { volumes, seed, first },
        (_, Some(images)) => Asked::Salvaged { images, seed, first },
        _ => Asked::Run(Plan { seed, first, until }),
    })
}

fn number(text: &str) -> Result<u64, String> {
    text.parse().map_err(|_| format!("{text} is no number"))
}

fn seed_by_clock() -> u64 {
    SystemTime::now().duration_since(UNIX_EPOCH).map_or(1, |time| time.as_secs())
}
