//! The program works from end to end. Nothing is said of the times.

use std::process::Command;

/// The tables of a run.
const TITLES: [&str; 21] = [
    "The machine and the tools",
    "The volumes",
    "Calls",
    "Calls on nearly full volumes",
    "Searches for free pages",
    "Runs",
    "Check beside e2fsck",
    "Many files beside mcopy",
    "Salvage beside the check",
    "Salvage beside e2fsck",
    "Growth of the check",
    "Hostile images: check",
    "Instructions",
    "Memory beyond the image",
    "The goals",
    "The packs",
    "Calls on packs",
    "Check of packs beside e2fsck",
    "Salvage of packs beside the check",
    "Hostile images as large as a pack: check",
    "Memory beyond a pack's image",
];

#[test]
fn a_quick_run_prints_every_table() {
    let output = Command::new(env!("CARGO_BIN_EXE_bench")).arg("--quick").output().unwrap();
    let text = String::from_utf8_lossy(&output.stdout);
    assert!(output.status.success(), "{}", String::from_utf8_lossy(&output.stderr));
    for title in TITLES {
        assert!(text.contains(&format!("{title}\n")), "no table {title}");
    }
    let refusals = text
        .lines()
        .filter(|line| line.starts_with("refusal of a hostile image, time over the full sound check "));
    assert_eq!(refusals.count(), 13, "the hostile images that are refused, five and a pack's eight");
    let goals = |goal: &str| text.lines().filter(|line| line.starts_with(goal)).count();
    assert_eq!(goals("search, time over the check's"), 3, "the volumes that are nearly full");
    assert_eq!(goals("search, time over bit after bit's"), 1, "the full volume");
    assert_eq!(
        goals("salvage, time over the check's"),
        12,
        "four volumes and two packs, sound and stale"
    );
    let nord = goals("nord check as a process, time over e2fsck's");
    assert!(
        nord == 6 || text.contains("Left out: e2fsck") || (text.contains("not built") && std::env::var_os("NORD_GATE").is_none()),
        "{nord}: four volumes and two packs"
    );
    let files = goals("200 files, time over mcopy's and sync's");
    assert!(
        files == 3 || text.contains("Left out: mcopy"),
        "{files}: in, with holes and without, and out"
    );
    let held = goals("who holds, time over second program's");
    assert_eq!(held, 6, "four volumes and two packs");
    let beside = goals("salvage, process over e2fsck's that mends");
    assert!(
        matches!(beside, 4 | 8) || text.contains("Left out: e2fsck"),
        "four volumes, on the disk and in memory"
    );
}
