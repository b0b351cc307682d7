//! Memory beyond the image, which bench-memory tells.

use super::Run;
use crate::calls::Call;
use crate::hostile::{self, Hostile};
use crate::progress;
use crate::report::{grouped, Table};
use crate::scratch::write_native;
use crate::volumes::{Volume, LARGE_VOLUME};
use std::fs::remove_file;
use std::io;
use std::path::Path;
use std::process::Command;

const NOTE: &str =
    "Bytes. Stack: the call runs in a thread whose stack was painted before; what is no longer paint was used, less what an empty \
    thread uses. Heap: the most that was out at once, by an allocator that counts. The library has no heap and no data of its own: its \
    memory is its stack. The most of any is that of the seven calls, of a salvage and of lists of one call, whichever it is, which the library alone is asked for; the list of changes is the caller's.";

/// Below 256 KiB.
const LIMIT: f64 = 262_143.0;

/// One line of bench-memory.
struct Used {
    call: String,
    program: String,
    stack: u64,
    heap: u64,
}

fn used(line: &str) -> Option<Used> {
    let mut parts = line.split(' ');
    let mut next = || parts.next().map(str::to_string);
    Some(Used {
        call: next()?,
        program: next()?,
        stack: next()?.parse().ok()?,
        heap: next()?.parse().ok()?,
    })
}

/// What the calls, or one of them, use on an image.
fn tell(image: &Path, call: Option<Call>) -> io::Result<Vec<Used>> {
    let program = std::env::current_exe()?.with_file_name("bench-memory");
    let output = Command::new(program).arg(image).args(call.map(Call::name)).output()?;
    if !output.status.success() {
        return Err(io::Error::other(String::from_utf8_lossy(&output.stderr).into_owned()));
    }
    Ok(String::from_utf8_lossy(&output.stdout).lines().filter_map(used).collect())
}

/// The most stack and heap of any of a program's calls, or of its check.
fn most(all: &[Used], program: &str, any: bool) -> (u64, u64) {
    let of = || all.iter().filter(|used| used.program == program && (any || used.call == "check"));
    (
        of().map(|used| used.stack).max().unwrap_or(0),
        of().map(|used| used.heap).max().unwrap_or(0),
    )
}

/// A row: the most of the check, or of any call.
fn row(name: &str, what: &str, all: &[Used], any: bool) -> Vec<String> {
    let (proved, second) = (most(all, "proved", any), most(all, "second", any));
    let cells = [proved.0, proved.1, second.0, second.1].map(grouped);
    [name.to_string(), what.to_string()].into_iter().chain(cells).collect()
}

fn judge(run: &mut Run, goal: &'static str, on: &str, all: &[Used]) {
    let (stack, heap) = most(all, "proved", true);
    let bytes = stack + heap;
    run.goals.at_most(goal, on, bytes as f64, LIMIT, grouped(bytes));
}

/// A hostile image that is refused: all that is asked of it needs the check, or salvage's part of it, and what is broken is looked for.
pub fn of_refusal(run: &mut Run, table: &mut Table, image: &Hostile, on: &str) -> io::Result<()> {
    progress::show(&format!("memory: {on}"));
    let path = write_native(&run.scratch.folder, on, &image.words, &hostile::question())?;
    let all = tell(&path, Some(Call::Check))?;
    remove_file(path)?;
    for (what, any) in [
        ("check, refused", false),
        ("the most of check, salvage and lists of one call", true),
    ] {
        table.row(row(on, what, &all, any));
    }
    judge(run, "memory beyond the image, bytes, a refusal of a hostile image", on, &all);
    Ok(())
}

pub fn table(title: &'static str) -> Table {
    let head = ["volume", "call", "proved: stack", "heap", "second: stack", "heap"];
    Table::new(title, NOTE, &head)
}

/// All calls on a volume.
pub fn of_volume(run: &mut Run, table: &mut Table, volume: &Volume) -> io::Result<()> {
    progress::show(&format!("memory: {}", volume.name));
    let path = run.scratch.native_volume(volume)?;
    let all = tell(&path, None)?;
    remove_file(path)?;
    for (what, any) in [("check", false), ("the most of any", true)] {
        table.row(row(&volume.name, what, &all, any));
    }
    judge(run, "memory beyond the image, bytes, the most of any call", &volume.name, &all);
    Ok(())
}

pub fn measure(run: &mut Run, volumes: &[Volume]) -> io::Result<()> {
    let mut table = table("Memory beyond the image");
    for volume in volumes {
        of_volume(run, &mut table, volume)?;
    }
    for image in hostile::all(LARGE_VOLUME, run.plan.hostile_users) {
        if image.twice.is_some() {
            of_refusal(run, &mut table, &image, image.name)?;
        }
    }
    progress::clear();
    run.report.add(table);
    Ok(())
}
