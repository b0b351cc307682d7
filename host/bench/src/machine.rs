//! The machine of a run, and the tools.

use crate::report::Table;
use std::process::Command;

/// The first line that a command says, or that it is not there.
fn said(program: &str, arguments: &[&str]) -> String {
    let output = Command::new(program).args(arguments).output();
    let text = output
        .map(|output| String::from_utf8_lossy(&output.stdout).into_owned())
        .unwrap_or_default();
    text.lines()
        .next()
        .map_or_else(|| format!("{program} is not there"), str::to_string)
}

fn processor() -> String {
    let output = Command::new("lscpu").output();
    let text = output
        .map(|output| String::from_utf8_lossy(&output.stdout).into_owned())
        .unwrap_or_default();
    let model = text.lines().find_map(|line| line.strip_prefix("Model name:"));
    model.map_or_else(|| "unknown".into(), |name| name.trim().to_string())
}

/// How the library came to be compiled for this machine.
fn library() -> &'static str {
    match std::env::consts::ARCH {
        "aarch64" => "the kit's LLVM module of the proved code, compiled for Arm by the kit's own clang (host/library)",
        _ => "compiled by the kit (host/library)",
    }
}

pub fn table() -> Table {
    let mut table = Table::new("The machine and the tools", "", &["what", "which"]);
    let load = std::fs::read_to_string("/proc/loadavg").unwrap_or_default();
    let cores = std::thread::available_parallelism().map_or(1, usize::from);
    let rows = [
        ("date", said("date", &["-u", "+%Y-%m-%d %H:%M UTC"])),
        (
            "commit",
            said("git", &["-C", env!("CARGO_MANIFEST_DIR"), "describe", "--always", "--dirty"]),
        ),
        ("machine", format!("{}, {}, {cores} cores", said("uname", &["-m"]), processor())),
        (
            "load before the run (1, 5, 15 minutes)",
            load.split(' ').take(3).collect::<Vec<_>>().join(" "),
        ),
        ("rustc (second program, bench)", said("rustc", &["--version"])),
        ("kit (proved library)", said("rt", &["version"])),
        ("proved library", library().into()),
        ("e2fsck", crate::ext2::version().unwrap_or_else(|| "not there".into())),
        ("valgrind", said("valgrind", &["--version"])),
    ];
    rows.into_iter().for_each(|(what, which)| table.row(vec![what.into(), which]));
    table
}
