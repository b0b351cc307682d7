//! A run killed at any moment leaves the old image or the new one, and does not stand in the way of the next run.

use crate::common::{disk, done, noise, words, Folder, NORD};
use std::os::unix::process::ExitStatusExt;
use std::process::{Child, Command, Stdio};
use std::time::{Duration, Instant};

/// What each run begins with and would end with.
pub struct Case {
    pub folder: Folder,
    pub line: String,
    old: Vec<u8>,
    new: Vec<u8>,
}

impl Case {
    /// Runs the line once undisturbed, to know the new image. Both are sound.
    pub fn new(folder: Folder, line: String) -> Case {
        let case = Case::of(folder, line);
        assert_eq!(proved::check(&nord::store::words(&case.old)).number, 0, "{}", case.line);
        case
    }

    /// A salvage of the image, whose first bits, last bits and unreserved are made wrong: of its last pages some are reserved that nobody holds.
    pub fn salvage(folder: Folder) -> Case {
        let image = folder.path("disk.img");
        let mut words = nord::store::words(&std::fs::read(&image).unwrap());
        let (bits, last) = (1024 * usize::from(words[1021]), words.len() / 1024 / 16 - 1);
        (words[1023], words[bits], words[bits + last]) = (1, 1, 0xa5a5);
        words[1024 * 16 * last..][..1024].fill(0x4577);
        std::fs::write(&image, nord::store::bytes(&words)).unwrap();
        let case = Case::of(folder, "salvage IMAGE".to_string());
        assert_eq!(proved::check(&words).rule, 9);
        case
    }

    fn of(folder: Folder, line: String) -> Case {
        let image = folder.path("disk.img");
        let old = std::fs::read(&image).unwrap();
        done(&image, &line);
        let new = std::fs::read(&image).unwrap();
        assert!(old != new, "{line} changes nothing");
        assert_eq!(proved::check(&nord::store::words(&new)).number, 0, "{line}");
        std::fs::write(&image, &old).unwrap();
        Case { folder, line, old, new }
    }

    fn start(&self, pause: Option<&str>) -> Child {
        let image = self.folder.path("disk.img");
        let mut command = Command::new(NORD);
        command
            .args(words(&image, &self.line))
            .stdin(Stdio::piped())
            .stdout(Stdio::null())
            .stderr(Stdio::piped());
        command.env("NORD_PAUSE", pause.unwrap_or_default()).spawn().unwrap()
    }

    /// Whether the image is the new one; if it is neither the old nor the new, the test fails. Then the old one is put back.
    pub fn is_new(&self, when: &str) -> bool {
        let image = self.folder.path("disk.img");
        let now = std::fs::read(&image).unwrap();
        assert!(
            now == self.old || now == self.new,
            "{}, killed {when}: neither the old image nor the new one",
            self.line
        );
        let is_new = now == self.new;
        if is_new {
            std::fs::write(&image, &self.old).unwrap();
        }
        is_new
    }

    /// The next run is done at once, and nothing of the killed ones is left.
    pub fn next_run_is_done(&self) {
        let image = self.folder.path("disk.img");
        done(&image, &format!("{} --wait 0", self.line));
        assert!(std::fs::read(&image).unwrap() == self.new, "{}", self.line);
        assert!(
            self.folder.names().iter().all(|name| !name.contains("nord-")),
            "{:?}",
            self.folder.names()
        );
        std::fs::write(&image, &self.old).unwrap();
    }
}

/// Writing a large file over a smaller one.
fn large_write() -> Case {
    let (folder, image) = disk(2048, 2000);
    let first = folder.put("first.bin", &noise(1, 300 * 2048));
    done(&image, &format!("write IMAGE DOCK/READS:DATA {}", first.display()));
    let second = folder.put("second.bin", &noise(2, 700 * 2048));
    let line = format!("write IMAGE DOCK/READS:DATA {}", second.display());
    Case::new(folder, line)
}

/// Another change, of an image that has a large file too.
fn other_change(line: &str) -> Case {
    let (folder, image) = disk(1024, 900);
    let bytes = folder.put("bytes.bin", &noise(3, 600 * 2048));
    done(&image, &format!("write IMAGE DOCK/READS:DATA {}", bytes.display()));
    done(&image, "user add IMAGE FLOCK");
    Case::new(folder, line.to_string())
}

/// A salvage of an image that has a large file.
fn salvage() -> Case {
    Case::salvage(other_change("user delete IMAGE FLOCK").folder)
}

/// An import of many files over an image that has some of them.
fn import() -> Case {
    let (folder, image) = disk(1024, 900);
    let within = folder.path("in");
    std::fs::create_dir(&within).unwrap();
    for number in 0..40 {
        std::fs::write(within.join(format!("file-{number}.bin")), noise(number, 30_000)).unwrap();
    }
    let there = folder.put("FILE-7.BIN", &noise(99, 70_000));
    done(&image, &format!("import IMAGE DOCK {}", there.display()));
    let line = format!("import IMAGE DOCK {}", within.display());
    Case::new(folder, line)
}

/// A script of changes of several kinds.
fn script() -> Case {
    let (folder, _image) = disk(1024, 900);
    let bytes = folder.put("bytes.bin", &noise(3, 600 * 2048));
    let lines = format!(
        "write DOCK/READS:DATA {}\nuser add FLOCK\nuser give FLOCK 9\nfile create FLOCK/LOG\nfile grow FLOCK/LOG 5\nconvert --to zeros\n",
        bytes.display()
    );
    let script = folder.put("script", lines.as_bytes());
    let line = format!("run IMAGE {}", script.display());
    Case::new(folder, line)
}

/// How long a run takes that is not killed.
fn undisturbed(case: &Case) -> Duration {
    let start = Instant::now();
    case.start(None).wait().unwrap();
    let time = start.elapsed();
    assert!(case.is_new("not at all"));
    time
}

/// Kills runs at so many moments, evenly over the time that a run takes, and a bit beside. Counts the images that were old and new.
fn kill_at_moments(case: &Case, moments: u32) -> (u32, u32) {
    let whole = (0..3).map(|_| undisturbed(case)).min().unwrap();
    let (mut hit, mut old, mut new, mut tries) = (0, 0, 0, 0);
    while hit < moments {
        tries += 1;
        assert!(tries < 4 * moments, "{}: runs end before they are killed", case.line);
        let delay = whole * (tries * 37 % moments) / moments + Duration::from_micros(u64::from(tries * 7919 % 997));
        let mut child = case.start(None);
        std::thread::sleep(delay);
        child.kill().unwrap();
        hit += u32::from(child.wait().unwrap().signal() == Some(9));
        match case.is_new(&format!("after {delay:?}")) {
            false => old += 1,
            true => new += 1,
        }
    }
    case.next_run_is_done();
    (old, new)
}

#[test]
fn a_write_killed_at_many_moments() {
    let (old, new) = kill_at_moments(&large_write(), 70);
    println!("{old} old images, {new} new ones");
    assert!(old > 20, "{old} old, {new} new");
}

#[test]
fn imports_and_scripts_killed_at_many_moments() {
    for case in [import(), script()] {
        let (old, new) = kill_at_moments(&case, 24);
        println!("{}: {old} old images, {new} new ones", case.line);
        assert!(old > 6, "{old} old, {new} new");
    }
}

#[test]
fn other_changes_killed_at_many_moments() {
    for line in [
        "user delete IMAGE FLOCK",
        "file delete IMAGE DOCK/READS:DATA",
        "file grow IMAGE DOCK/READS:DATA 50",
        "format IMAGE BERTH --force",
    ] {
        let (old, new) = kill_at_moments(&other_change(line), 16);
        println!("{line}: {old} old images, {new} new ones");
    }
    let (old, new) = kill_at_moments(&salvage(), 16);
    println!("salvage: {old} old images, {new} new ones");
}

/// Runs that are killed exactly between two steps.
#[cfg(debug_assertions)]
mod staged {
    use super::*;

    /// Starts a run that pauses at a stage, waits until it is there, and kills it.
    fn kill_at_stage(case: &Case, stage: &str) {
        let mut child = case.start(Some(stage));
        let mut said = String::new();
        std::io::BufRead::read_line(&mut std::io::BufReader::new(child.stderr.take().unwrap()), &mut said).unwrap();
        assert_eq!(said, format!("paused at {stage}\n"));
        child.kill().unwrap();
        assert_eq!(child.wait().unwrap().signal(), Some(9));
    }

    /// The stages of a replacement, and whether the image is the new one by then.
    const STAGES: [(&str, bool); 6] = [
        ("locked", false),
        ("read", false),
        ("half", false),
        ("written", false),
        ("synced", false),
        ("placed", true),
    ];

    #[test]
    fn killed_at_each_stage_of_a_replacement() {
        let lines = [
            "user add IMAGE BERTH",
            "file create IMAGE DOCK/NEW --contiguous 9",
            "format IMAGE BERTH --force",
        ];
        for case in lines
            .map(other_change)
            .iter()
            .chain([&large_write(), &salvage(), &import(), &script()])
        {
            for (stage, new) in STAGES {
                kill_at_stage(case, stage);
                assert_eq!(case.is_new(stage), new, "{} killed when {stage}", case.line);
                case.next_run_is_done();
            }
        }
    }

    #[test]
    fn many_leftovers_are_swept() {
        let case = other_change("user add IMAGE BERTH");
        for name in [".disk.img.nord-1", ".disk.img.nord-99999999"] {
            case.folder.put(name, b"left by a run of long ago");
        }
        let others = [".disk.img.nord-", ".disk.img.nord-1x", ".other.img.nord-1"];
        for name in others {
            case.folder.put(name, b"not ours");
        }
        kill_at_stage(&case, "half");
        done(&case.folder.path("disk.img"), &case.line);
        let mut left = case.folder.names();
        left.retain(|name| name.contains("nord-"));
        assert_eq!(left, others);
    }

    /// A new image is not there, or is there whole.
    #[test]
    fn a_new_image_killed_at_each_stage() {
        for (stage, there) in [("half", false), ("written", false), ("synced", false), ("placed", true)] {
            let folder = Folder::new();
            let image = folder.path("disk.img");
            let line = "format IMAGE YARD --pages 200".to_string();
            let case = Case {
                folder,
                line,
                old: Vec::new(),
                new: Vec::new(),
            };
            kill_at_stage(&case, stage);
            assert_eq!(image.exists(), there, "{stage}");
            if !there {
                done(&image, &case.line);
            }
            assert_eq!(done(&image, "check IMAGE"), "sound: 2 of 200 pages are held\n");
            done(&image, "user add IMAGE DOCK");
            assert_eq!(case.folder.names(), ["disk.img"], "{stage}");
        }
    }

    /// Pages that nobody holds are copied out whole or not at all, each of them, and before the image is the new one.
    #[test]
    fn a_salvage_killed_while_pages_are_copied_out() {
        let case = salvage();
        let (old, out) = (case.folder.path("disk.img"), case.folder.path("out"));
        let old = std::fs::read(old).unwrap();
        let case = Case {
            line: format!("{} --orphans {}", case.line, out.display()),
            ..case
        };
        for stage in ["half", "written", "synced", "placed"] {
            kill_at_stage(&case, stage);
            assert!(!case.is_new(stage), "{stage}");
            case.next_run_is_done();
            let mut pages = 0;
            for file in std::fs::read_dir(&out).unwrap().map(|entry| entry.unwrap().path()) {
                let name = file.file_name().unwrap().to_str().unwrap();
                let page: usize = name["page-".len()..][..5].parse().unwrap();
                assert!(std::fs::read(&file).unwrap() == old[2048 * page..][..2048], "{name}");
                pages += 1;
            }
            assert!(pages > 1, "{stage}: {pages} pages");
            std::fs::remove_dir_all(&out).unwrap();
        }
    }

    /// What is exported is no file or the whole one, and none before all are written.
    #[test]
    fn an_export_killed_at_each_stage() {
        let case = import();
        let (image, out) = (case.folder.path("disk.img"), case.folder.path("out"));
        done(&image, &case.line);
        let line = format!("export IMAGE DOCK {}", out.display());
        let case = Case { line, ..case };
        for (stage, placed) in [("one written", 0), ("all written", 0), ("placed", 1)] {
            kill_at_stage(&case, stage);
            let names = std::fs::read_dir(&out)
                .unwrap()
                .map(|entry| entry.unwrap().file_name().into_string().unwrap());
            let placed_now: Vec<String> = names.filter(|name| !name.starts_with('.')).collect();
            assert_eq!(placed_now.len(), placed, "{stage}");
            for name in placed_now {
                let number: u64 = name["FILE-".len()..].trim_end_matches(".BIN").parse().unwrap();
                assert!(
                    std::fs::read(out.join(&name)).unwrap()[..30_000] == noise(number, 30_000)[..],
                    "{name}"
                );
            }
            done(&image, &case.line);
            assert_eq!(
                std::fs::read_dir(&out).unwrap().count(),
                40,
                "{stage}: what a killed run has left is swept"
            );
            std::fs::remove_dir_all(&out).unwrap();
        }
    }

    /// What is read into a host's file is the old file or the whole new one.
    #[test]
    fn a_read_killed_at_each_stage() {
        let case = other_change("user add IMAGE BERTH");
        let out = case.folder.put("out.bin", b"old");
        let line = format!("read IMAGE DOCK/READS:DATA {}", out.display());
        let case = Case { line, ..case };
        for (stage, new) in [("half", false), ("written", false), ("synced", false), ("placed", true)] {
            kill_at_stage(&case, stage);
            assert_eq!(std::fs::read(&out).unwrap() == noise(3, 600 * 2048), new, "{stage}");
            assert_eq!(std::fs::read(&out).unwrap() == b"old", !new, "{stage}");
        }
        done(&case.folder.path("disk.img"), &case.line);
        assert_eq!(case.folder.names(), ["bytes.bin", "disk.img", "out.bin"]);
    }
}
