//! Instructions of each call, by callgrind; and of the check as the volume grows.

use super::calls::DOMINATED;
use super::growth::{volumes as growing, NEAR};
use super::Run;
use crate::callgrind::{count, is_there, jobs_of, Job};
use crate::calls::{Call, Program, CALLS};
use crate::goals::Line;
use crate::profile::of_check;
use crate::progress;
use crate::report::{grouped, Table};
use crate::volumes::Volume;
use std::io;

const NOTE: &str =
    "By callgrind: a process of eleven calls less a process of one, divided by ten. Runs differ by a few instructions at most.";

pub fn measure(run: &mut Run, volumes: &[Volume]) -> io::Result<()> {
    if !is_there() {
        run.report.add(Table::new(
            "Instructions",
            "Left out: valgrind is not there (Debian's package valgrind).",
            &[],
        ));
        return Ok(());
    }
    of_calls(run, volumes)?;
    if run.plan.all_instructions {
        of_growth(run)?;
        by_function(run, volumes)?;
    }
    Ok(())
}

fn counted(what: &str, jobs: &[Job]) -> Vec<Option<u64>> {
    let shown = |done: usize| progress::show(&format!("callgrind: {what}, {done} of {}", jobs.len()));
    let counts = count(jobs, shown);
    progress::clear();
    counts
}

fn told(count: Option<u64>) -> String {
    count.map_or_else(|| "callgrind failed".into(), grouped)
}

fn over(count: Option<u64>, other: Option<u64>) -> Option<f64> {
    count.zip(other).map(|(count, other)| count as f64 / other as f64)
}

fn judge(run: &mut Run, volume: &str, call: Call, ratio: Option<f64>, over_check: Option<f64>) {
    match (call, ratio, over_check) {
        (Call::Check, Some(ratio), _) => {
            run.goals.at_most(
                "check, instructions over second program's",
                volume,
                ratio,
                1.0,
                format!("{ratio:.2}"),
            );
        }
        (Call::Address | Call::FindUser | Call::FindFile, _, Some(over)) => {
            let told = format!("{over:.4}, {}", call.name());
            run.goals.at_most(
                "address and find, instructions over check's, the most of the three",
                volume,
                over,
                DOMINATED,
                told,
            );
        }
        _ => (),
    }
}

fn of_calls(run: &mut Run, volumes: &[Volume]) -> io::Result<()> {
    let (calls, volumes) = if run.plan.all_instructions {
        (&CALLS[..], volumes)
    } else {
        (&CALLS[..1], &volumes[..1])
    };
    let mut jobs = Vec::new();
    for volume in volumes {
        jobs.extend(jobs_of(calls, &run.scratch.native_volume(volume)?));
    }
    let counts = counted("calls", &jobs);
    let mut table = Table::new("Instructions", NOTE, &["volume", "call", "proved", "second", "proved / second"]);
    let mut check = None;
    for (job, two) in jobs.chunks(2).zip(counts.chunks(2)) {
        let (call, volume) = (
            job[0].call,
            job[0].image.file_stem().unwrap_or_default().to_string_lossy().into_owned(),
        );
        let ratio = over(two[0], two[1]);
        check = if call == Call::Check { two[0] } else { check };
        judge(run, &volume, call, ratio, over(two[0], check));
        table.row(vec![
            volume,
            call.name().into(),
            told(two[0]),
            told(two[1]),
            ratio.map_or_else(String::new, |ratio| format!("{ratio:.2}")),
        ]);
    }
    run.report.add(table);
    Ok(())
}

/// A check of a volume, to be counted.
fn check_of(run: &Run, volume: &Volume) -> io::Result<Job> {
    Ok(Job {
        call: Call::Check,
        program: Program::Proved,
        image: run.scratch.native_volume(volume)?,
    })
}

fn of_growth(run: &mut Run) -> io::Result<()> {
    let mut table = Table::new(
        "Growth of the check: instructions",
        "",
        &["P", "pages held", "proved", "a held page"],
    );
    let mut points = Vec::new();
    for pages in run.plan.growth.clone() {
        points.extend(of_size(run, &mut table, pages)?);
    }
    let line = Line::through(&points);
    table.note = format!(
        "The nearest straight line over the held pages: {:.0} and {:.2} for each page; no point is farther from it than {:.1}% of its own height.",
        line.fixed,
        line.slope,
        line.farthest * 100.0
    );
    let shown = format!("{:.3}", line.farthest);
    run.goals.at_most(
        "check linear in held pages: farthest from the line, as a share",
        "instructions",
        line.farthest,
        NEAR,
        shown,
    );
    run.report.add(table);
    Ok(())
}

/// The checks of the volumes of one size: their rows, and their points over the pages held. The files go away again.
fn of_size(run: &Run, table: &mut Table, pages: u32) -> io::Result<Vec<(f64, f64)>> {
    let volumes = growing(pages);
    let jobs = volumes
        .iter()
        .map(|volume| check_of(run, volume))
        .collect::<io::Result<Vec<Job>>>()?;
    let mut points = Vec::new();
    for (volume, count) in volumes.iter().zip(counted(&format!("growth to {pages}"), &jobs)) {
        let held = volume.held();
        let Some(count) = count else { continue };
        points.push((f64::from(held), count as f64));
        table.row(vec![
            pages.to_string(),
            held.to_string(),
            grouped(count),
            format!("{:.2}", count as f64 / f64::from(held)),
        ]);
    }
    jobs.iter().try_for_each(|job| std::fs::remove_file(&job.image))?;
    Ok(points)
}

const WHERE: &str = "By callgrind: instructions inside a function itself, in one check, as a share of all the library's own. What the \
    compiler put into its caller counts there: the walk over system pages, the bits' comparison and rule 10 into sound::judge_held.";

/// Where the instructions of the library's check go.
fn by_function(run: &mut Run, volumes: &[Volume]) -> io::Result<()> {
    let mut table = Table::new(
        "Where the check's instructions go",
        WHERE,
        &["volume", "function", "instructions", "share"],
    );
    for volume in volumes {
        progress::show(&format!("callgrind: functions on {}", volume.name));
        let shares = of_check(&run.scratch.native_volume(volume)?)?;
        let all: u64 = shares.iter().map(|share| share.1).sum();
        for (name, count) in shares.iter().take(5) {
            let share = format!("{:.1}%", 100.0 * *count as f64 / all as f64);
            table.row(vec![volume.name.clone(), name.clone(), grouped(*count), share]);
        }
    }
    progress::clear();
    run.report.add(table);
    Ok(())
}
