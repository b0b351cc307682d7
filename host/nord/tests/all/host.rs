//! What the host can do to us: full disks, files that may not be read or written, folders that may not be changed, links, odd files.

use crate::common::{done, fails, forbidden, run, sample, untried, words as words_of, Folder, Run, NORD};
use std::fs::{self, Permissions};
use std::os::unix::fs::{symlink, MetadataExt, PermissionsExt};
use std::os::unix::process::CommandExt;
use std::path::Path;
use std::process::{Command, Stdio};

fn mode(path: &Path, mode: u32) {
    fs::set_permissions(path, Permissions::from_mode(mode)).unwrap();
}

fn is_root() -> bool {
    fs::metadata("/proc/self").unwrap().uid() == 0
}

/// A run of one who may not do everything: nobody if the tests run as root, for whom permissions mean nothing.
fn run_as_nobody(folder: &Folder, image: &Path, line: &str) -> Run {
    let program = folder.path("nord");
    if !program.exists() {
        // Another process copies it: a copy that this one has open would be open in what other tests start meanwhile, and could not be run.
        assert!(Command::new("cp").args([Path::new(NORD), &program]).status().unwrap().success());
    }
    mode(&program, 0o755);
    let mut command = Command::new(program);
    if is_root() {
        command.uid(65534).gid(65534);
    }
    Run::of(command.args(words_of(image, line)).stdin(Stdio::null()).output().unwrap())
}

/// A command that would replace the image where no file may be so large: it says so, and the image is as it was.
pub fn meets_a_limit_of_file_sizes(folder: &Folder, image: &Path, line: &str) {
    let before = fs::read(image).unwrap();
    let script = format!("trap '' XFSZ; ulimit -f 100; exec {NORD} {line}");
    let run = Run::of(Command::new("bash").args(["-c", &script]).output().unwrap());
    assert_eq!(run.status, 74);
    assert!(
        run.err.contains("disk.img: not replaced, the old one is as it was: File too large"),
        "{}",
        run.err
    );
    assert!(fs::read(image).unwrap() == before);
    assert_eq!(folder.names(), ["disk.img"]);
}

#[test]
fn a_limit_of_file_sizes_is_a_clear_error() {
    let (folder, image) = sample();
    meets_a_limit_of_file_sizes(&folder, &image, &format!("user add {} FLOCK", image.display()));
    done(&image, "user add IMAGE FLOCK");
}

/// Runs a script beside a copy of the image, in a mount of its own of this size, which the system takes away with the run; IMAGE stands for the image
/// itself. Where mounts are not allowed that is said, and the test above stands alone.
fn on_a_small_disk(folder: &Folder, image: &Path, size: &str, script: &str) -> Option<Run> {
    let small = folder.path("small");
    fs::create_dir(&small).unwrap();
    let (small, image) = (small.display().to_string(), image.display().to_string());
    let script = script.replace("IMAGE", &image);
    let script = format!("mount -t tmpfs -o size={size} none {small} || exit 99; cp --sparse=never {image} {small}; cd {small}; {script}");
    let run = match Command::new("unshare").args(["-rm", "bash", "-c", &script]).output() {
        Ok(output) => Run::of(output),
        Err(error) => {
            untried("unshare", error);
            return None;
        }
    };
    if run.status == 99 || run.err.starts_with("unshare:") {
        forbidden("mounts (unshare -rm)", run.err);
        return None;
    }
    Some(run)
}

#[test]
fn a_full_disk_is_a_clear_error() {
    let (folder, image) = sample();
    let script = format!(
        "head -c 80k /dev/zero >out.bin; {NORD} user add disk.img FLOCK; echo status $?; cmp disk.img IMAGE && echo same; \
         {NORD} read disk.img DOCK/LAMBS:DATA out.bin; echo status $?; stat -c %s out.bin; ls -A; {NORD} check disk.img"
    );
    let Some(run) = on_a_small_disk(&folder, &image, "400k", &script) else {
        return;
    };
    let wanted = "status 74\nsame\nstatus 74\n81920\ndisk.img\nout.bin\nsound: 20 of 154 pages are held\n";
    assert_eq!(run.text(), wanted, "{}", run.err);
    for name in ["disk.img", "out.bin"] {
        assert!(
            run.err
                .contains(&format!("{name}: not replaced, the old one is as it was: No space left on device")),
            "{}",
            run.err
        );
    }
}

/// The same for an import, a script and an export: the image is as it was, and of the export nothing is there.
#[test]
fn many_files_on_a_full_disk() {
    let (folder, image) = sample();
    fs::write(folder.path("one.txt"), b"Ewe 513").unwrap();
    fs::write(folder.path("lines"), "user add FLOCK\nfile grow DOCK/READS:DATA 3\n").unwrap();
    let script = format!(
        "{NORD} import disk.img DOCK ../one.txt; echo status $?; {NORD} run disk.img ../lines; echo status $?; cmp disk.img IMAGE && echo same; \
         {NORD} export disk.img DOCK out; echo status $?; ls -A; {NORD} check disk.img"
    );
    let Some(run) = on_a_small_disk(&folder, &image, "328k", &script) else {
        return;
    };
    let wanted = "status 74\nstatus 74\nsame\nstatus 74\ndisk.img\nsound: 20 of 154 pages are held\n";
    assert_eq!(run.text(), wanted, "{}", run.err);
    assert_eq!(run.err.matches("No space left on device").count(), 3, "{}", run.err);
}

#[test]
fn an_answer_that_cannot_be_printed_is_an_error() {
    let (_folder, image) = sample();
    for (line, words) in [
        ("list IMAGE", "nord: done, but the answer could not be printed: No space left"),
        (
            "user add IMAGE FLOCK",
            "nord: done, but the answer could not be printed: No space left",
        ),
        ("read IMAGE DOCK/LAMBS:DATA", "nord: standard output: No space left"),
    ] {
        let full = fs::File::options().write(true).open("/dev/full").unwrap();
        let child = Command::new(NORD)
            .args(words_of(&image, line))
            .stdout(full)
            .stderr(Stdio::piped())
            .spawn()
            .unwrap();
        let run = Run::of(child.wait_with_output().unwrap());
        assert_eq!((run.status, run.err.starts_with(words)), (74, true), "{line}: {}", run.err);
    }
    assert!(done(&image, "list IMAGE").contains("FLOCK"));
}

#[test]
fn a_reader_that_goes_away_is_no_error_but_for_a_file_in_parts() {
    let (_folder, image) = sample();
    let statuses = |line: &str| {
        let command = words_of(&image, line).join(" ");
        let script = format!("(sleep 0.3; {NORD} {command}; echo $? >&2) | true");
        Run::of(Command::new("bash").args(["-c", &script]).output().unwrap()).err
    };
    assert_eq!(statuses("list IMAGE"), "0\n");
    assert_eq!(statuses("user add IMAGE FLOCK"), "0\n");
    assert_eq!(statuses("read IMAGE DOCK/LAMBS:DATA"), "74\n");
    assert!(done(&image, "list IMAGE").contains("FLOCK"));
}

#[test]
fn an_unreadable_image_and_one_that_may_not_be_written() {
    let (folder, image) = sample();
    mode(&folder.0, 0o777);
    let before = fs::read(&image).unwrap();
    mode(&image, 0o000);
    for line in ["check IMAGE", "user add IMAGE FLOCK"] {
        let run = run_as_nobody(&folder, &image, line);
        assert_eq!(
            (run.status, run.err.contains("disk.img: Permission denied")),
            (74, true),
            "{line}: {}",
            run.err
        );
    }
    mode(&image, 0o444);
    assert_eq!(run_as_nobody(&folder, &image, "check IMAGE").status, 0);
    let run = run_as_nobody(&folder, &image, "user add IMAGE FLOCK");
    assert_eq!(
        (run.status, run.err.contains("disk.img: Permission denied")),
        (74, true),
        "{}",
        run.err
    );
    assert!(fs::read(&image).unwrap() == before);
}

#[test]
fn a_folder_that_may_not_be_written() {
    let (folder, image) = sample();
    let before = fs::read(&image).unwrap();
    mode(&image, 0o666);
    run_as_nobody(&folder, &image, "check IMAGE");
    mode(&folder.0, 0o555);
    let run = run_as_nobody(&folder, &image, "user add IMAGE FLOCK");
    mode(&folder.0, 0o755);
    assert_eq!(run.status, 74);
    assert!(
        run.err
            .contains("disk.img: not replaced, the old one is as it was: Permission denied"),
        "{}",
        run.err
    );
    assert!(fs::read(&image).unwrap() == before);
    assert_eq!(folder.names(), ["disk.img", "nord"]);
}

#[test]
fn owner_and_permissions_are_kept() {
    let (_folder, image) = sample();
    mode(&image, 0o640);
    if is_root() {
        std::os::unix::fs::chown(&image, Some(65534), Some(65534)).unwrap();
    }
    let before = fs::metadata(&image).unwrap();
    done(&image, "user add IMAGE FLOCK");
    let after = fs::metadata(&image).unwrap();
    assert_eq!(
        (after.mode(), after.uid(), after.gid()),
        (before.mode(), before.uid(), before.gid())
    );
    assert_ne!(after.ino(), before.ino());
}

#[test]
fn a_link_to_an_image_stays_a_link() {
    let (folder, image) = sample();
    fs::create_dir(folder.path("else")).unwrap();
    let link = folder.path("else/link.img");
    symlink(&image, &link).unwrap();
    done(&link, "user add IMAGE FLOCK");
    assert!(fs::symlink_metadata(&link).unwrap().is_symlink());
    assert!(done(&image, "list IMAGE").contains("FLOCK"));
    assert_eq!(folder.names(), ["disk.img", "else"]);
}

/// What a command says on standard error though it is done.
fn said(image: &Path, line: &str) -> String {
    let run = run(image, line);
    assert_eq!(run.status, 0, "{line}: {}", run.err);
    run.err
}

#[test]
fn other_names_of_a_replaced_image_are_told() {
    let (folder, image) = sample();
    let before = fs::read(&image).unwrap();
    fs::hard_link(&image, folder.path("second.img")).unwrap();
    let names = |words: &str| format!("nord: {}: {words} the old image\n", image.display());
    let one = names("1 other name of the old file (hard link) keeps");
    // Where nothing is replaced there is nothing to tell.
    assert_eq!(said(&image, "salvage IMAGE"), "");
    assert_eq!(said(&image, "user add IMAGE FLOCK"), one);
    assert!(fs::read(folder.path("second.img")).unwrap() == before);
    assert_eq!(said(&image, "user add IMAGE HERD"), "");
    for name in ["third.img", "fourth.img"] {
        fs::hard_link(&image, folder.path(name)).unwrap();
    }
    let two = names("2 other names of the old file (hard links) keep");
    assert_eq!(said(&image, "user delete IMAGE HERD"), two);
}

#[test]
fn a_link_to_no_file_yet_is_followed() {
    let (folder, image) = sample();
    fs::create_dir(folder.path("else")).unwrap();
    let (link, first) = (folder.path("link.bin"), folder.path("first.bin"));
    symlink("else/out.bin", &link).unwrap();
    symlink("link.bin", &first).unwrap();
    for path in [&first, &link] {
        done(&image, &format!("read IMAGE DOCK/READS:DATA {}", path.display()));
        assert!(fs::symlink_metadata(path).unwrap().is_symlink());
        let out = folder.path("else/out.bin");
        assert_eq!(fs::read(&out).unwrap(), run(&image, "read IMAGE DOCK/READS:DATA").out);
        fs::remove_file(out).unwrap();
    }
    fs::remove_dir(folder.path("else")).unwrap();
    let read = format!("read IMAGE DOCK/READS:DATA {}", first.display());
    let missing = format!("first.bin: the folder {}: No such file", folder.path("else").display());
    assert!(fails(&image, &read, 74).contains(&missing));
    fs::remove_file(&link).unwrap();
    symlink("first.bin", &link).unwrap();
    assert!(fails(&image, &read, 74).contains("links in a row"));
    assert_eq!(folder.names(), ["disk.img", "first.bin", "link.bin"]);
}

#[test]
fn what_is_no_image_file() {
    let (folder, image) = sample();
    for (path, words, asked) in [
        (folder.0.clone(), "not a file", 74),
        (folder.path("absent.img"), "No such file", 74),
        // What asks reads a device to its end, which is no whole number of pages here.
        ("/dev/null".into(), "not a file", 1),
    ] {
        let changing = run(&path, "user add IMAGE FLOCK");
        assert_eq!((changing.status, changing.err.contains(words)), (74, true), "{}", changing.err);
        let asking = run(&path, "check IMAGE");
        assert_eq!((asking.status, asking.err.contains(words)), (asked, asked == 74), "{}", asking.err);
    }
    assert_eq!(run(&folder.path("absent/new.img"), "format IMAGE YARD --pages 10").status, 74);
    assert!(fails(&image, "format IMAGE YARD --pages 154", 74).contains("disk.img: is there already"));
    assert!(fails(&image, "sample IMAGE", 74).contains("disk.img: is there already"));
    assert_eq!(folder.names(), ["disk.img"]);
}

#[test]
fn an_error_of_the_host_as_json() {
    let folder = Folder::new();
    let run = run(&folder.path("absent.img"), "check IMAGE --json");
    assert_eq!((run.status, &run.json()["number"]), (74, &serde_json::json!(74)));
    assert!(run.json()["error"].as_str().unwrap().contains("No such file"));
}
