//! The system calls of a run, by strace: in the right order, and a run killed at each of them. Where there is no strace these tests say so and
//! try nothing, and in the gate they fail; where it may not trace they say so. killed.rs stands without it.

use crate::common::{done, forbidden, noise, sample, untried, words, Folder, NORD};
use crate::killed::Case;
use std::collections::HashMap;
use std::path::Path;
use std::process::{Command, ExitStatus, Stdio};

/// Runs a command line under strace, with these options for it.
fn strace(folder: &Folder, options: &[&str], line: &str) -> std::io::Result<ExitStatus> {
    let mut command = Command::new("strace");
    command
        .arg("-o")
        .arg(folder.path("trace"))
        .args(options)
        .arg(NORD)
        .args(words(&folder.path("disk.img"), line));
    command.stdin(Stdio::null()).stdout(Stdio::null()).stderr(Stdio::null()).status()
}

/// The calls that a run makes, each as strace writes it; none where strace cannot be used.
pub fn calls(folder: &Folder, line: &str) -> Vec<String> {
    match strace(folder, &[], line) {
        Ok(status) if status.success() => std::fs::read_to_string(folder.path("trace"))
            .unwrap()
            .lines()
            .map(str::to_string)
            .collect(),
        Ok(status) => {
            assert!(!may_trace(), "strace {line}: {status}");
            forbidden("tracing", status);
            Vec::new()
        }
        Err(error) => {
            untried("strace", error);
            Vec::new()
        }
    }
}

/// Whether strace can follow a program at all.
fn may_trace() -> bool {
    let mut command = Command::new("strace");
    command.args(["-o", "/dev/null", "true"]).stderr(Stdio::null());
    command.status().is_ok_and(|status| status.success())
}

fn name(call: &str) -> &str {
    call.split('(').next().unwrap()
}

#[test]
fn the_new_file_is_synced_before_the_rename_and_the_folder_after_it() {
    let (folder, _image) = sample();
    let calls = calls(&folder, "user add IMAGE FLOCK");
    if calls.is_empty() {
        return;
    }
    let at = |wanted: &str| {
        calls
            .iter()
            .position(|call| call.starts_with(wanted))
            .unwrap_or_else(|| panic!("no {wanted}"))
    };
    let rename = at("rename");
    let syncs: Vec<usize> = (0..calls.len()).filter(|&number| calls[number].starts_with("fsync(")).collect();
    assert_eq!(syncs.len(), 2, "{calls:#?}");
    assert!(syncs[0] < rename && rename < syncs[1], "{calls:#?}");
    // What is synced is what was opened last: the new file, then the folder.
    let opened = |before: usize| calls[..before].iter().rfind(|call| call.starts_with("openat(")).unwrap();
    assert!(opened(syncs[0]).contains("/.disk.img.nord-"), "{}", opened(syncs[0]));
    assert!(
        opened(syncs[1]).contains(&format!("\"{}\"", folder.0.display())),
        "{}",
        opened(syncs[1])
    );
}

/// Takes away what a killed run has left, so that the next one makes the same calls.
fn leave_nothing(folder: &Folder) {
    for name in folder.names().iter().filter(|name| name.contains(".nord-")) {
        std::fs::remove_file(folder.path(name)).unwrap();
    }
}

/// Kills the run at each system call from the first that names the image on. Gives how many kills left the old image, and the new one.
fn kill_at_each_call(case: &Case) -> Option<(u32, u32)> {
    let calls = calls(&case.folder, &case.line);
    let first = calls.iter().skip(1).position(|call| call.contains("disk.img"))? + 1;
    assert!(case.is_new("not at all"));
    let (mut seen, mut old, mut new) = (HashMap::new(), 0, 0);
    for (number, call) in calls.iter().enumerate() {
        let count = seen.entry(name(call)).and_modify(|count| *count += 1).or_insert(1);
        if number < first || call.starts_with("exit") || call.starts_with("+++") {
            continue;
        }
        let inject = format!("inject={}:signal=SIGKILL:when={count}", name(call));
        let status = strace(&case.folder, &["-e", &inject], &case.line).unwrap();
        let is_new = case.is_new(&format!("at {call}"));
        match (status.success(), is_new) {
            (false, false) => old += 1,
            (false, true) => new += 1,
            // This run needed a call less, for memory: it came to its end.
            (true, is_new) => assert!(is_new, "{inject}: done, and the image is the old one"),
        }
        leave_nothing(&case.folder);
    }
    case.next_run_is_done();
    Some((old, new))
}

#[test]
fn killed_at_each_system_call() {
    let (folder, image) = sample();
    let small = folder.put("small.bin", &noise(1, 5000));
    let write = format!("write IMAGE DOCK/READS:DATA {}", small.display());
    done(Path::new(&image), "user add IMAGE FLOCK");
    let mut case = Case::new(folder, write);
    for line in [
        "",
        "user delete IMAGE FLOCK",
        "file grow IMAGE DOCK/READS:DATA 3",
        "format IMAGE BERTH --force",
        "salvage IMAGE",
    ] {
        match line {
            "" => {}
            "salvage IMAGE" => case = Case::salvage(case.folder),
            _ => case = Case::new(case.folder, line.to_string()),
        }
        let Some((old, new)) = kill_at_each_call(&case) else { return };
        println!("{}: {old} old images, {new} new ones", case.line);
        assert!(old > 20 && new > 2, "{}: {old} old, {new} new", case.line);
    }
}
