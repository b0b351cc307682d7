//! Two writers at once: no change is lost, and who cannot have the image says so.

use crate::common::{disk, done, run, words, Run, NORD};
use std::path::Path;
use std::process::{Child, Command, Stdio};

fn start(image: &Path, line: &str) -> Child {
    Command::new(NORD)
        .args(words(image, line))
        .stdin(Stdio::null())
        .stdout(Stdio::piped())
        .stderr(Stdio::piped())
        .spawn()
        .unwrap()
}

#[test]
fn writers_that_wait_are_all_done() {
    let (folder, image) = disk(1024, 100);
    let children: Vec<Child> = (0..24).map(|number| start(&image, &format!("user add IMAGE U{number}"))).collect();
    for child in children {
        let run = Run::of(child.wait_with_output().unwrap());
        assert_eq!(run.status, 0, "{}", run.err);
    }
    let listing = done(&image, "list IMAGE");
    for number in 0..24 {
        assert!(listing.contains(&format!(" U{number} GIVEN")), "U{number} is lost");
    }
    assert_eq!(folder.names(), ["disk.img"]);
}

#[test]
fn writers_that_do_not_wait_are_done_or_say_locked() {
    let (folder, image) = disk(1024, 100);
    let (mut users, mut refused) = (vec!["DOCK".to_string()], 0);
    for round in 0..6 {
        let names: Vec<String> = (0..8).map(|number| format!("R{round}-{number}")).collect();
        let children: Vec<Child> = names
            .iter()
            .map(|name| start(&image, &format!("user add IMAGE {name} --wait 0")))
            .collect();
        for (name, child) in names.into_iter().zip(children) {
            let run = Run::of(child.wait_with_output().unwrap());
            match run.status {
                0 => users.push(name),
                75 => assert!(run.err.ends_with("disk.img: locked by another writer\n"), "{}", run.err),
                other => panic!("status {other}: {}", run.err),
            }
            refused += u32::from(run.status == 75);
        }
    }
    println!("{} done, {refused} locked out", users.len() - 1);
    let listed = run(&image, "list IMAGE --json").json();
    let mut listed: Vec<&str> = listed["users"]
        .as_array()
        .unwrap()
        .iter()
        .map(|user| user["name"].as_str().unwrap())
        .collect();
    listed.sort_unstable();
    users.sort_unstable();
    assert_eq!(listed, users);
    assert_eq!(folder.names(), ["disk.img"]);
}

#[test]
fn readers_always_see_a_whole_image() {
    let (_folder, image) = disk(1024, 900);
    let writers: Vec<Child> = (0..12)
        .map(|number| start(&image, &format!("file create IMAGE DOCK/F{number} --contiguous 20")))
        .collect();
    for _ in 0..40 {
        done(&image, "check IMAGE");
    }
    for child in writers {
        assert_eq!(Run::of(child.wait_with_output().unwrap()).status, 0);
    }
    assert_eq!(done(&image, "list IMAGE").lines().count(), 14);
}

#[cfg(debug_assertions)]
mod paused {
    use super::*;
    use std::io::{BufRead, BufReader, Write};

    /// A run that has come to a stage and waits there.
    struct Paused(Child, BufReader<std::process::ChildStderr>);

    impl Paused {
        fn start(image: &Path, line: &str, stage: &str) -> Paused {
            let mut command = Command::new(NORD);
            command.args(words(image, line)).env("NORD_PAUSE", stage);
            let mut child = command
                .stdin(Stdio::piped())
                .stdout(Stdio::piped())
                .stderr(Stdio::piped())
                .spawn()
                .unwrap();
            let mut err = BufReader::new(child.stderr.take().unwrap());
            let mut said = String::new();
            err.read_line(&mut said).unwrap();
            assert_eq!(said, format!("paused at {stage}\n"));
            Paused(child, err)
        }

        /// Lets it go on to its end; gives its status and what it says.
        fn end(mut self) -> (i32, String) {
            self.0.stdin.take().unwrap().write_all(b"\n").unwrap();
            let mut said = String::new();
            std::io::Read::read_to_string(&mut self.1, &mut said).unwrap();
            (self.0.wait().unwrap().code().unwrap(), said)
        }
    }

    #[test]
    fn a_second_writer_waits_or_fails_at_once() {
        let (_folder, image) = disk(154, 50);
        let first = Paused::start(&image, "user add IMAGE FIRST", "synced");
        assert_eq!(run(&image, "user add IMAGE SECOND --wait 0").status, 75);
        let second = start(&image, "user add IMAGE SECOND");
        // A reader is not kept waiting, and sees the old image.
        assert_eq!(done(&image, "list IMAGE").lines().count(), 2);
        std::thread::sleep(std::time::Duration::from_millis(1300));
        assert_eq!(first.end(), (0, String::new()));
        let second = Run::of(second.wait_with_output().unwrap());
        assert_eq!(second.status, 0);
        assert!(second.err.ends_with("disk.img: waiting for another writer\n"), "{}", second.err);
        let listing = done(&image, "list IMAGE");
        assert!(listing.contains("USER 1 FIRST") && listing.contains("USER 2 SECOND"), "{listing}");
    }

    /// The first writer has opened the image, and before it locks that file another one puts a new image in its place.
    #[test]
    fn a_writer_that_locks_an_old_file_begins_anew() {
        let (_folder, image) = disk(154, 50);
        let first = Paused::start(&image, "user add IMAGE FIRST", "opened");
        done(&image, "user add IMAGE SECOND");
        let (status, said) = first.end();
        // It comes by the same stage again, on the new image.
        assert_eq!((status, said.as_str()), (0, "paused at opened\n"));
        let listing = done(&image, "list IMAGE");
        assert!(listing.contains("USER 1 SECOND") && listing.contains("USER 2 FIRST"), "{listing}");
    }

    /// A file in the making is not swept away by others, and an image that came first is not overwritten.
    #[test]
    fn of_two_that_make_an_image_one_is_told_that_it_is_there() {
        let folder = crate::common::Folder::new();
        let image = folder.path("disk.img");
        let first = Paused::start(&image, "format IMAGE FIRST --pages 20", "half");
        done(&image, "format IMAGE SECOND --pages 10");
        done(&image, "user add IMAGE DOCK");
        let making = format!(".disk.img.nord-{}", first.0.id());
        assert_eq!(folder.names(), [making.as_str(), "disk.img"]);
        let (status, said) = first.end();
        assert_eq!((status, said.ends_with("disk.img: is there already\n")), (74, true), "{said}");
        assert!(done(&image, "list IMAGE").starts_with("VOLUME SECOND PAGES 10 "));
        assert_eq!(folder.names(), ["disk.img"]);
    }

    /// The kB that a change has taken at most.
    fn memory_of(image: &Path, line: &str) -> u64 {
        let paused = Paused::start(image, line, "placed");
        let status = std::fs::read_to_string(format!("/proc/{}/status", paused.0.id())).unwrap();
        let most = status.lines().find_map(|line| line.strip_prefix("VmHWM:")).unwrap();
        assert_eq!(paused.end(), (0, String::new()));
        most.trim().trim_end_matches(" kB").parse().unwrap()
    }

    /// The words that were read, to see at the end that the file is still the same, and those that are changed; and some MB for the program. Where
    /// the image has zeros neither takes any.
    #[test]
    fn a_change_takes_two_times_the_image_and_nothing_for_zeros() {
        let (folder, image) = disk(16384, 16300);
        let size = std::fs::metadata(&image).unwrap().len() / 1024;
        let empty = memory_of(&image, "user add IMAGE FIRST");
        assert!(empty < size, "{empty} kB for an empty image of {size} kB");
        std::fs::write(folder.path("full"), vec![b'N'; 16_200 * 2048]).unwrap();
        done(&image, &format!("write IMAGE DOCK/FULL {}", folder.path("full").display()));
        let full = memory_of(&image, "user add IMAGE SECOND");
        assert!(
            full > 2 * size - 4_000 && full < 2 * size + 10_000,
            "{full} kB for a full image of {size} kB"
        );
    }

    #[test]
    fn an_image_that_changes_its_length_while_it_is_read() {
        // The larger one is checked without its data being read.
        for (pages, length) in [154, 2000]
            .into_iter()
            .flat_map(|pages| [0, 100, 20 * 2048, 2200 * 2048].map(|length| (pages, length)))
        {
            for line in ["check IMAGE", "list IMAGE", "user add IMAGE FIRST"] {
                let (_folder, image) = disk(pages, 50);
                let paused = Paused::start(&image, line, "reading");
                std::fs::File::options().write(true).open(&image).unwrap().set_len(length).unwrap();
                let (status, said) = paused.end();
                assert_eq!(status, 75, "{said}");
                assert!(
                    said.ends_with("disk.img: another program has changed it while it was read\n"),
                    "{said}"
                );
                assert_eq!(std::fs::metadata(&image).unwrap().len(), length);
            }
        }
    }

    #[test]
    fn an_image_that_is_overwritten_while_it_is_read() {
        for (pages, line) in [154, 2000]
            .into_iter()
            .flat_map(|pages| ["check IMAGE", "page IMAGE 0"].map(|line| (pages, line)))
        {
            let (_folder, image) = disk(pages, 50);
            let paused = Paused::start(&image, line, "reading");
            let file = std::fs::File::options().write(true).open(&image).unwrap();
            std::os::unix::fs::FileExt::write_all_at(&file, &[1], 2048 * u64::from(pages) - 1).unwrap();
            let (status, said) = paused.end();
            assert_eq!(
                (status, said.ends_with("has changed it while it was read\n")),
                (75, true),
                "{line}: {said}"
            );
        }
    }

    /// A program that knows nothing of the lock changes the image while a command is at work.
    fn meanwhile(change: impl Fn(&Path), stage: &str) -> (i32, String) {
        let (folder, image) = disk(154, 50);
        let paused = Paused::start(&image, "user add IMAGE FIRST", stage);
        change(&image);
        let theirs = std::fs::read(&image).unwrap_or_default();
        let (status, said) = paused.end();
        assert!(
            std::fs::read(&image).unwrap_or_default() == theirs,
            "the other program's image is lost: {said}"
        );
        assert!(folder.names().iter().all(|name| !name.contains("nord-")), "{:?}", folder.names());
        (status, said)
    }

    #[test]
    fn an_image_that_another_program_changes_is_left_to_it() {
        let shorten = |image: &Path| {
            std::fs::File::options()
                .write(true)
                .open(image)
                .unwrap()
                .set_len(20 * 2048)
                .unwrap()
        };
        let lengthen = |image: &Path| std::fs::File::options().append(true).open(image).unwrap().write_all(&[1]).unwrap();
        let overwrite = |image: &Path| {
            let time = std::fs::metadata(image).unwrap().modified().unwrap();
            let mut bytes = std::fs::read(image).unwrap();
            bytes[300_000] ^= 1;
            std::fs::write(image, bytes).unwrap();
            // Even with the old time put back.
            std::fs::File::options()
                .write(true)
                .open(image)
                .unwrap()
                .set_modified(time)
                .unwrap();
        };
        let replace = |image: &Path| {
            let copy = image.with_extension("copy");
            std::fs::copy(image, &copy).unwrap();
            std::fs::rename(copy, image).unwrap();
        };
        for stage in ["read", "half", "synced"] {
            for change in [&shorten as &dyn Fn(&Path), &lengthen, &overwrite, &replace] {
                let (status, said) = meanwhile(change, stage);
                assert_eq!(status, 75, "{said}");
                assert!(said.contains("another program has changed it meanwhile"), "{said}");
            }
            let (status, said) = meanwhile(|image| std::fs::remove_file(image).unwrap(), stage);
            assert_eq!(status, 74, "{said}");
        }
    }
}
