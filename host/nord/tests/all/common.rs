//! Folders of their own for tests, runs of the program, and images to begin with.

use serde_json::Value;
use std::fmt::Debug;
use std::io::Write;
use std::path::{Path, PathBuf};
use std::process::{Command, Output, Stdio};
use std::sync::atomic::{AtomicU32, Ordering};

pub const NORD: &str = env!("CARGO_BIN_EXE_nord");

/// A folder that goes away with the test.
pub struct Folder(pub PathBuf);

impl Folder {
    pub fn new() -> Folder {
        static NEXT: AtomicU32 = AtomicU32::new(0);
        let name = format!("nord-test-{}-{}", std::process::id(), NEXT.fetch_add(1, Ordering::Relaxed));
        let path = std::env::temp_dir().join(name);
        std::fs::create_dir(&path).unwrap();
        Folder(path)
    }

    pub fn path(&self, name: &str) -> PathBuf {
        self.0.join(name)
    }

    pub fn put(&self, name: &str, bytes: &[u8]) -> PathBuf {
        std::fs::write(self.path(name), bytes).unwrap();
        self.path(name)
    }

    /// The names in the folder, sorted.
    pub fn names(&self) -> Vec<String> {
        let mut names: Vec<String> = std::fs::read_dir(&self.0)
            .unwrap()
            .map(|entry| entry.unwrap().file_name().into_string().unwrap())
            .collect();
        names.sort();
        names
    }
}

impl Drop for Folder {
    fn drop(&mut self) {
        let _ = std::fs::remove_dir_all(&self.0);
    }
}

/// Says that a test cannot be tried here, for want of which tool, and why: past the capture of a test's output, so that it is seen. In the
/// gate (host/test sets NORD_GATE) the test fails.
pub fn untried(tool: &str, why: impl Debug) {
    let line = format!("NOT TRIED for want of {tool}: {why:?}");
    let _ = writeln!(std::io::stderr(), "{line}");
    assert!(std::env::var_os("NORD_GATE").is_none(), "{line}");
}

/// Says that a test cannot be tried, as this machine forbids what it does: no tool that could be installed changes that, so the gate shows
/// the line (host/test looks for it) and goes on.
pub fn forbidden(what: &str, why: impl Debug) {
    let _ = writeln!(std::io::stderr(), "NOT TRIED, as this machine forbids {what}: {why:?}");
}

/// How a run ended.
pub struct Run {
    pub status: i32,
    pub out: Vec<u8>,
    pub err: String,
}

impl Run {
    pub fn of(output: Output) -> Run {
        let status = output.status.code().unwrap_or(-1);
        Run {
            status,
            out: output.stdout,
            err: String::from_utf8(output.stderr).unwrap(),
        }
    }

    pub fn text(&self) -> &str {
        std::str::from_utf8(&self.out).unwrap()
    }

    pub fn json(&self) -> Value {
        serde_json::from_slice(&self.out).unwrap_or_else(|error| panic!("{error}: {}", String::from_utf8_lossy(&self.out)))
    }
}

/// The words of a command line; IMAGE stands for the image.
pub fn words(image: &Path, line: &str) -> Vec<String> {
    line.split(' ')
        .map(|word| {
            if word == "IMAGE" {
                image.to_str().unwrap().to_string()
            } else {
                word.to_string()
            }
        })
        .collect()
}

pub fn run(image: &Path, line: &str) -> Run {
    Run::of(Command::new(NORD).args(words(image, line)).stdin(Stdio::null()).output().unwrap())
}

/// A run that must be done, silently but for its answer; gives the answer.
pub fn done(image: &Path, line: &str) -> String {
    let run = run(image, line);
    assert_eq!((run.status, run.err.as_str()), (0, ""), "{line}");
    run.text().to_string()
}

/// A run that must fail with this status and leave the image as it is; gives what it says.
pub fn fails(image: &Path, line: &str, status: i32) -> String {
    let before = std::fs::read(image).unwrap();
    let run = run(image, line);
    assert_eq!(run.status, status, "{line}: {}{}", run.err, String::from_utf8_lossy(&run.out));
    assert!(run.err.starts_with("nord: "), "{line}: {}", run.err);
    assert!(std::fs::read(image).unwrap() == before, "{line} has changed the image");
    run.err
}

/// The sample disk in a folder.
pub fn sample() -> (Folder, PathBuf) {
    let folder = Folder::new();
    let image = folder.path("disk.img");
    done(&image, "sample IMAGE");
    (folder, image)
}

/// A disk of so many pages with user DOCK, who is given so many.
pub fn disk(pages: u32, given: u32) -> (Folder, PathBuf) {
    let folder = Folder::new();
    let image = folder.path("disk.img");
    done(&image, &format!("format IMAGE YARD --pages {pages}"));
    done(&image, "user add IMAGE DOCK");
    done(&image, &format!("user give IMAGE DOCK {given}"));
    (folder, image)
}

/// Bytes that look like nothing else, the same for the same seed.
pub fn noise(seed: u64, count: usize) -> Vec<u8> {
    let mut state = seed.wrapping_mul(0x9e37_79b9_7f4a_7c15) | 1;
    let step = |state: &mut u64| {
        *state ^= *state << 13;
        *state ^= *state >> 7;
        *state ^= *state << 17;
        (*state >> 32) as u8
    };
    (0..count).map(|_| step(&mut state)).collect()
}
