//! An image that comes by a pipe: the commands that ask read it to its end, and those that change want a file.

use crate::common::{disk, done, fails, run, sample, words, Run, NORD};
use crate::traced;
use std::fs::{self, File};
use std::path::Path;
use std::process::{Command, Stdio};

/// A run with the image on standard input, by a pipe that brings it in small parts.
fn piped(image: &Path, line: &str) -> Run {
    let mut cat = Command::new("dd")
        .args(["bs=1001", "status=none", &format!("if={}", image.display())])
        .stdout(Stdio::piped())
        .spawn()
        .unwrap();
    let pipe = cat.stdout.take().unwrap();
    let run = Run::of(Command::new(NORD).args(words(image, line)).stdin(pipe).output().unwrap());
    cat.wait().unwrap();
    run
}

/// What asks, with `-` for the image.
const ASKING: [&str; 10] = [
    "check -",
    "check - --json",
    "list -",
    "find - DOCK/LAMBS:DATA",
    "address - DOCK/READS:DATA 2",
    "who - 5",
    "page - 2",
    "map -",
    "read - DOCK/READS:DATA",
    "read - DOCK/READS:DATA -",
];

#[test]
fn every_command_that_asks_says_the_same_of_a_pipe() {
    let (folder, image) = sample();
    for line in ASKING {
        let of_file = run(&image, &line.replacen(" -", " IMAGE", 1));
        let of_pipe = piped(&image, line);
        assert_eq!((of_pipe.status, of_pipe.err.as_str()), (0, ""), "{line}");
        assert!(of_file.out == of_pipe.out, "{line}: {}", String::from_utf8_lossy(&of_pipe.out));
    }
    assert_eq!(folder.names(), ["disk.img"]);
}

#[test]
fn a_file_is_copied_out_of_a_pipe_but_not_over_its_own_image() {
    let (folder, image) = sample();
    let out = folder.path("out.bin");
    let read = piped(&image, &format!("read - DOCK/READS:DATA {}", out.display()));
    assert_eq!((read.status, read.err.as_str()), (0, ""));
    assert_eq!(fs::read(&out).unwrap(), run(&image, "read IMAGE DOCK/READS:DATA").out);
    let before = fs::read(&image).unwrap();
    let line = "read - DOCK/READS:DATA IMAGE";
    let input = File::open(&image).unwrap();
    let read = Run::of(Command::new(NORD).args(words(&image, line)).stdin(input).output().unwrap());
    assert_eq!((read.status, read.err.contains("is the image itself")), (64, true), "{}", read.err);
    assert!(fs::read(&image).unwrap() == before);
}

#[test]
fn wrong_lengths_of_a_pipe() {
    let (folder, _image) = sample();
    for (bytes, said) in [
        (0, "pages of 2,048 bytes"),
        (2049, "the image has 2049 bytes"),
        (20_000, "pages of 2,048 bytes"),
    ] {
        let part = folder.put("part.img", &vec![0; bytes]);
        let run = piped(&part, "check -");
        assert_eq!((run.status, run.err.contains(said)), (1, true), "{bytes}: {}", run.err);
    }
    // An endless one ends.
    let zeros = File::open("/dev/zero").unwrap();
    let run = Run::of(Command::new(NORD).args(["check", "-"]).stdin(zeros).output().unwrap());
    assert_eq!((run.status, run.err.ends_with(" pages) (or more)\n")), (1, true), "{}", run.err);
}

#[test]
fn an_unsound_pipe_is_refused_with_its_place() {
    let (_folder, image) = sample();
    let mut bytes = fs::read(&image).unwrap();
    bytes[2 * 1023] ^= 1;
    fs::write(&image, bytes).unwrap();
    let run = piped(&image, "check -");
    assert_eq!(
        (run.status, run.err.contains("rule 10 is broken at page 0")),
        (3, true),
        "{}",
        run.err
    );
}

/// A FIFO at a path, and a pipe as `<(zcat disk.img.gz)` gives it.
#[test]
fn pipes_at_a_path_are_read_to_their_end() {
    let (folder, image) = sample();
    let (image, fifo) = (image.display(), folder.path("fifo"));
    let fifo = fifo.display();
    let script = format!("{NORD} check <(cat {image}); mkfifo {fifo}; cat {image} >{fifo} & {NORD} check {fifo}");
    let run = Run::of(Command::new("bash").args(["-c", &script]).output().unwrap());
    assert_eq!(run.text(), "sound: 20 of 154 pages are held\n".repeat(2), "{}", run.err);
}

/// What a writer has begun to bring is lost with the first reader, and a second one would wait for ever.
#[test]
fn a_pipe_at_a_path_is_opened_once() {
    let (folder, image) = sample();
    let fifo = folder.path("fifo");
    let made = format!("mkfifo {}; exec cat {} >{}", fifo.display(), image.display(), fifo.display());
    let mut writer = Command::new("sh").args(["-c", &made]).spawn().unwrap();
    while !fifo.exists() {
        std::thread::yield_now();
    }
    let calls = traced::calls(&folder, &format!("check {}", fifo.display()));
    let _ = writer.kill();
    writer.wait().unwrap();
    let opened = calls.iter().filter(|call| call.starts_with("openat(") && call.contains("/fifo\""));
    assert!(calls.is_empty() || opened.count() == 1, "{calls:#?}");
}

#[test]
fn what_changes_wants_a_file() {
    let (folder, image) = disk(154, 50);
    let input = folder.put("in.bin", b"reads");
    let write = format!("write - DOCK/READS:DATA {}", input.display());
    for line in [
        "user add - FLOCK",
        "user delete - DOCK",
        "file create - DOCK/READS:DATA",
        "format - YARD",
        "format - YARD --pages 10",
        "sample -",
        "convert - --to zeros",
        "salvage -",
        &write,
    ] {
        let run = piped(&image, line);
        assert_eq!((run.status, run.out.len()), (64, 0), "{line}: {}", run.err);
        assert!(
            run.err.contains("standard input") && run.err.contains("needs a file"),
            "{line}: {}",
            run.err
        );
    }
    assert_eq!(folder.names(), ["disk.img", "in.bin"]);
    assert!(fails(&image, "user add - FLOCK", 64).starts_with("nord: -: only a command that asks"));
    done(&image, "check IMAGE");
}
