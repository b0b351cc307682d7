//! Instructions of a call, by callgrind: a process of eleven calls less a process of one, divided by ten.

use crate::calls::{Call, Program};
use crate::children::COPIES;
use std::ffi::OsStr;
use std::path::{Path, PathBuf};
use std::process::{Command, Stdio};
use std::sync::atomic::{AtomicUsize, Ordering};
use std::sync::Mutex;

/// One figure to be counted.
#[derive(Clone)]
pub struct Job {
    pub call: Call,
    pub program: Program,
    pub image: PathBuf,
}

pub fn is_there() -> bool {
    let probe = Command::new("valgrind")
        .arg("--version")
        .stdout(Stdio::null())
        .stderr(Stdio::null())
        .status();
    probe.is_ok_and(|status| status.success())
}

/// The instructions that callgrind collects of this program with these arguments, the last of which is the number of calls.
fn collected(arguments: &[&OsStr], times: usize) -> Option<u64> {
    let mut command = Command::new("valgrind");
    command
        .args(["--tool=callgrind", "--callgrind-out-file=/dev/null"])
        .arg(std::env::current_exe().ok()?);
    command.args(arguments).arg(times.to_string());
    let output = command.output().ok()?;
    let text = String::from_utf8_lossy(&output.stderr).into_owned();
    let line = text.lines().find(|line| line.contains("Collected"))?;
    output.status.success().then_some(())?;
    line.rsplit(' ').next()?.parse().ok()
}

/// The instructions of one call, which this program makes as often as its last argument says.
pub fn of_one(arguments: &[&OsStr]) -> Option<u64> {
    let (one, all) = (collected(arguments, 1)?, collected(arguments, COPIES)?);
    Some(all.checked_sub(one)? / (COPIES as u64 - 1))
}

/// The instructions of one call.
fn instructions(job: &Job) -> Option<u64> {
    of_one(&[
        "once".as_ref(),
        job.call.name().as_ref(),
        job.image.as_os_str(),
        job.program.name().as_ref(),
    ])
}

/// Counts all jobs, as many at a time as there are cores: counts do not depend on what else runs.
pub fn count(jobs: &[Job], done: impl Fn(usize) + Sync) -> Vec<Option<u64>> {
    let results = Mutex::new(vec![None; jobs.len()]);
    let (next, finished) = (AtomicUsize::new(0), AtomicUsize::new(0));
    let cores = std::thread::available_parallelism().map_or(1, usize::from);
    std::thread::scope(|scope| {
        for _ in 0..cores {
            scope.spawn(|| loop {
                let n = next.fetch_add(1, Ordering::Relaxed);
                let Some(job) = jobs.get(n) else { break };
                let found = instructions(job);
                results.lock().unwrap()[n] = found;
                done(finished.fetch_add(1, Ordering::Relaxed) + 1);
            });
        }
    });
    results.into_inner().unwrap()
}

/// Jobs of both programs for some calls on one image.
pub fn jobs_of(calls: &[Call], image: &Path) -> Vec<Job> {
    let both = [Program::Proved, Program::Second];
    calls
        .iter()
        .flat_map(|&call| {
            both.map(|program| Job {
                call,
                program,
                image: image.to_path_buf(),
            })
        })
        .collect()
}
