//! Files and folders in and out of an image, all of them or none.

use crate::common::{disk, done, fails, noise, run, sample, Folder};
use serde_json::json;
use std::fs;
use std::path::Path;

/// A folder with files of 0 to 3 pages, and a folder in it.
fn yard(folder: &Folder) -> String {
    let within = folder.path("in");
    fs::create_dir_all(within.join("more")).unwrap();
    for (name, seed, bytes) in [
        ("reads.data", 1, 5000),
        ("Long name of a file.backup", 2, 2048),
        ("empty", 3, 0),
        ("more/reads.data", 4, 1),
        (".hidden", 5, 2049),
    ] {
        fs::write(within.join(name), noise(seed, bytes)).unwrap();
    }
    within.display().to_string()
}

#[test]
fn a_folder_goes_in_and_comes_out() {
    let (folder, image) = disk(64, 40);
    let within = yard(&folder);
    let said = done(&image, &format!("import IMAGE DOCK {within}"));
    let wanted = format!(
        "{within}/.hidden -> DOCK/-HIDDEN: created: 2 pages\n\
         {within}/Long name of a file.backup -> DOCK/LONG-NAME-OF-A-F:BACK created: 1 page\n\
         {within}/empty -> DOCK/EMPTY: created: 0 pages\n\
         {within}/more/reads.data -> DOCK/READS:DATA created: 1 page\n\
         {within}/reads.data -> DOCK/READS-2:DATA created: 3 pages\n\
         5 files copied to DOCK, 7 pages\n"
    );
    assert_eq!(said, wanted);
    let out = folder.path("out");
    let said = done(&image, &format!("export IMAGE DOCK {}", out.display()));
    assert!(said.starts_with(&format!("-HIDDEN: -> {}/-HIDDEN\n", out.display())), "{said}");
    assert!(said.ends_with(&format!("5 files copied to {}, 7 pages\n", out.display())), "{said}");
    for (name, seed, bytes) in [
        ("READS-2.DATA", 1, 5000),
        ("LONG-NAME-OF-A-F.BACK", 2, 2048),
        ("EMPTY", 3, 0),
        ("READS.DATA", 4, 1),
        ("-HIDDEN", 5, 2049_usize),
    ] {
        let (read, whole) = (fs::read(out.join(name)).unwrap(), bytes.next_multiple_of(2048));
        assert!(read[..bytes] == noise(seed, bytes)[..] && read.len() == whole, "{name}");
        assert!(read[bytes..].iter().all(|byte| *byte == 0), "{name}");
    }
    assert_eq!(fs::read_dir(&out).unwrap().count(), 5);
    assert_eq!(folder.names(), ["disk.img", "in", "out"]);
}

#[test]
fn files_that_are_there_are_replaced_or_left() {
    let (folder, image) = sample();
    let reads = folder.put("READS.DATA", &noise(7, 10_000));
    let new = folder.put("new.txt", b"Ewe 513");
    let line = format!("import IMAGE DOCK {} {}", reads.display(), new.display());
    let left = done(&image, &format!("{line} --no-clobber"));
    assert!(left.contains("DOCK/READS:DATA is there and is left\n"), "{left}");
    assert!(
        left.ends_with("1 file copied to DOCK, 1 page; 1 file there already and left\n"),
        "{left}"
    );
    assert!(run(&image, "read IMAGE DOCK/READS:DATA").text().starts_with("Page 0 of READS:DATA"));
    let replaced = done(&image, &line);
    assert!(
        replaced.contains("DOCK/READS:DATA replaced: 5 pages\n") && replaced.contains("NEW:TXT replaced: 1 page\n"),
        "{replaced}"
    );
    assert_eq!(run(&image, "read IMAGE DOCK/READS:DATA").out[..10_000], noise(7, 10_000));
    let out = folder.path("out");
    fs::create_dir(&out).unwrap();
    fs::write(out.join("NEW.TXT"), b"mine").unwrap();
    let said = done(&image, &format!("export IMAGE DOCK/*:TXT {} --no-clobber", out.display()));
    assert!(said.contains("NEW.TXT is there and is left\n0 files copied"), "{said}");
    assert_eq!(fs::read(out.join("NEW.TXT")).unwrap(), b"mine");
    done(&image, &format!("export IMAGE DOCK/*:TXT {}", out.display()));
    assert_eq!(fs::read(out.join("NEW.TXT")).unwrap()[..8], *b"Ewe 513\0");
    assert_eq!(fs::read_dir(&out).unwrap().count(), 1);
}

#[test]
fn patterns_choose() {
    let (folder, image) = sample();
    let names = |line: &str| {
        let out = folder.path("chosen");
        done(&image, &format!("export IMAGE {line} {}", out.display()));
        let mut names: Vec<String> = fs::read_dir(&out)
            .unwrap()
            .map(|entry| entry.unwrap().file_name().into_string().unwrap())
            .collect();
        fs::remove_dir_all(&out).unwrap();
        names.sort();
        names
    };
    assert_eq!(names("DOCK"), ["LAMBS.DATA", "READS.DATA"]);
    assert_eq!(names("@0"), ["LAMBS.DATA", "READS.DATA"]);
    assert_eq!(names("DOCK/R*"), ["READS.DATA"]);
    assert_eq!(names("DOCK/?????:D*A"), ["LAMBS.DATA", "READS.DATA"]);
    assert_eq!(names("DOCK/LAMBS:DATA"), ["LAMBS.DATA"]);
    assert_eq!(names("DOCK/@1"), ["LAMBS.DATA"]);
    let out = folder.path("none");
    for line in ["DOCK/X*", "DOCK/READS:", "FLOCK", "DOCK/@7"] {
        let said = fails(&image, &format!("export IMAGE {line} {}", out.display()), 4);
        assert!(said.contains("there is no such"), "{said}");
        assert!(!out.exists(), "{line}");
    }
}

#[test]
fn one_file_that_is_refused_leaves_all() {
    let (folder, image) = disk(64, 8);
    let (first, second) = (folder.put("first.bin", &[1; 2048]), folder.put("second.bin", &[2; 9 * 2048]));
    let line = format!("import IMAGE DOCK {} {}", first.display(), second.display());
    let said = fails(&image, &line, 9);
    assert!(
        said.contains("given less used is below the pages needed: DOCK/SECOND:BIN (1 page needed, 0 are there)"),
        "{said}"
    );
    fails(
        &image,
        &format!("import IMAGE DOCK {} {}", first.display(), folder.path("gone").display()),
        74,
    );
    fails(&image, &format!("import IMAGE FLOCK {}", first.display()), 4);
    assert_eq!(run(&image, "import IMAGE DOCK").status, 64);
    assert!(done(&image, "list IMAGE").ends_with("USER 0 DOCK GIVEN 8 USED 0\n"));
    let (_other, unsound) = sample();
    let mut bytes = fs::read(&unsound).unwrap();
    bytes[77 * 2048] ^= 1;
    fs::write(&unsound, &bytes).unwrap();
    fails(&unsound, &format!("import IMAGE DOCK {}", first.display()), 3);
    fails(&unsound, &format!("export IMAGE DOCK {}", folder.path("out").display()), 3);
    assert!(!folder.path("out").exists());
}

#[test]
fn programs_are_told_the_same() {
    let (folder, image) = disk(64, 20);
    let file = folder.put("my notes.txt", b"Ewe 513").display().to_string();
    let run_words = |words: &[&str]| {
        let output = std::process::Command::new(crate::common::NORD).args(words).output().unwrap();
        crate::common::Run::of(output).json()
    };
    let path = image.to_str().unwrap();
    let file_json = json!({
        "path": file, "name": "MY-NOTES", "type": "TXT", "user": 0, "file": 0, "pages": 1, "created": true,
    });
    assert_eq!(
        run_words(&["import", path, "DOCK", &file, "--json"]),
        json!({ "number": 0, "user": "DOCK", "files": [file_json], "imported": 1, "left": 0, "pages": 1 })
    );
    let out = folder.path("out").display().to_string();
    let output = format!("{out}/MY-NOTES.TXT");
    let file_json = json!({
        "user": 0, "file": 0, "name": "MY-NOTES", "type": "TXT", "pages": 1, "output": output, "written": true,
    });
    assert_eq!(
        run_words(&["export", path, "DOCK", &out, "--json"]),
        json!({ "number": 0, "folder": out, "files": [file_json], "exported": 1, "left": 0, "pages": 1 })
    );
}

#[test]
fn what_is_no_file_is_told_and_links_to_folders_are_not_followed() {
    let (folder, image) = disk(64, 20);
    let within = folder.path("in");
    fs::create_dir(&within).unwrap();
    fs::write(within.join("a.txt"), b"a").unwrap();
    std::os::unix::fs::symlink("a.txt", within.join("b.txt")).unwrap();
    std::os::unix::fs::symlink(".", within.join("round")).unwrap();
    std::os::unix::fs::symlink("gone", within.join("dangling")).unwrap();
    let run = run(&image, &format!("import IMAGE DOCK {}", within.display()));
    assert_eq!(run.status, 0);
    for name in ["round", "dangling"] {
        assert!(run.err.contains(&format!("{name}: no file, and not copied\n")), "{}", run.err);
    }
    assert!(run.text().ends_with("2 files copied to DOCK, 2 pages\n"), "{}", run.text());
}

#[test]
fn an_export_never_writes_the_image_nor_over_a_folder() {
    let (folder, image) = sample();
    let out = folder.path("out");
    fs::create_dir_all(out.join("READS.DATA")).unwrap();
    let said = fails(&image, &format!("export IMAGE DOCK {}", out.display()), 74);
    assert!(said.contains("READS.DATA: is there and is no file"), "{said}");
    fs::remove_dir(out.join("READS.DATA")).unwrap();
    fs::hard_link(&image, out.join("READS.DATA")).unwrap();
    assert!(fails(&image, &format!("export IMAGE DOCK {}", out.display()), 64).contains("is the image itself"));
    assert_eq!(fs::read_dir(&out).unwrap().count(), 1);
    assert!(!Path::new(&out.join("LAMBS.DATA")).exists());
}

/// Adding many files by one import costs one replacement: its system calls that sync are as many as for one file.
#[test]
fn two_hundred_files_go_in_by_one_replacement() {
    let (folder, image) = disk(1024, 900);
    let within = folder.path("in");
    fs::create_dir(&within).unwrap();
    for number in 0..200 {
        fs::write(within.join(format!("file-{number}.bin")), noise(number, 100 + 20 * number as usize)).unwrap();
    }
    let said = done(&image, &format!("import IMAGE DOCK {}", within.display()));
    assert!(said.contains("200 files copied to DOCK, "), "{said}");
    for number in [0, 7, 199_usize] {
        let read = run(&image, &format!("read IMAGE DOCK/FILE-{number}:BIN")).out;
        assert!(read[..100 + 20 * number] == noise(number as u64, 100 + 20 * number)[..]);
    }
}
