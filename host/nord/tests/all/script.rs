//! Lines of commands on one image: one lock, one check, one replacement.

use crate::common::{disk, done, fails, sample, Folder, Run, NORD};
use serde_json::{json, Value};
use std::io::Write;
use std::path::Path;
use std::process::{Command, Stdio};

/// Runs lines from standard input.
fn piped(image: &Path, lines: &str, options: &[&str]) -> Run {
    let mut command = Command::new(NORD);
    command.arg("run").arg(image).args(options);
    let mut child = command
        .stdin(Stdio::piped())
        .stdout(Stdio::piped())
        .stderr(Stdio::piped())
        .spawn()
        .unwrap();
    child.stdin.take().unwrap().write_all(lines.as_bytes()).unwrap();
    Run::of(child.wait_with_output().unwrap())
}

/// The objects of a run, one to a line.
fn objects(run: &Run) -> Vec<Value> {
    run.text().lines().map(|line| serde_json::from_str(line).unwrap()).collect()
}

#[test]
fn lines_are_run_as_commands_one_after_the_other() {
    let (folder, image) = sample();
    let note = folder.put("my note.txt", b"Ewe 513 came by the north gate.");
    let script = format!(
        "# the morning's work\nuser add FLOCK\nuser give FLOCK 20\n\nwrite FLOCK/NOTE:TEXT '{}'\nfile create FLOCK/LOG\n\
         file grow FLOCK/LOG 2\nfind FLOCK/LOG\nfile shrink FLOCK/LOG # one is enough\nfile open @1/@0\nlist\n",
        note.display()
    );
    let single = folder.path("single.img");
    std::fs::copy(&image, &single).unwrap();
    let said = done(&image, &format!("run IMAGE {}", folder.put("script", script.as_bytes()).display()));
    let mut wanted = String::new();
    for line in [
        "user add IMAGE FLOCK",
        "user give IMAGE FLOCK 20",
        &format!("write IMAGE FLOCK/NOTE:TEXT {}", note.display()).replace("my note", "my\u{0}note"),
        "file create IMAGE FLOCK/LOG",
        "file grow IMAGE FLOCK/LOG 2",
        "find IMAGE FLOCK/LOG",
        "file shrink IMAGE FLOCK/LOG",
        "file open IMAGE @1/@0",
        "list IMAGE",
    ] {
        let words: Vec<String> = crate::common::words(&single, line);
        let words = words.iter().map(|word| word.replace('\u{0}', " "));
        let output = Command::new(NORD).args(words).output().unwrap();
        assert!(output.status.success(), "{line}");
        wanted += std::str::from_utf8(&output.stdout).unwrap();
    }
    assert_eq!(said, wanted);
    assert!(std::fs::read(&image).unwrap() == std::fs::read(&single).unwrap());
}

#[test]
fn a_refused_line_is_told_and_nothing_is_changed() {
    let (_folder, image) = sample();
    let before = std::fs::read(&image).unwrap();
    let lines = "user add FLOCK\n\n  user give FLOCK 200  \nuser add BERTH\n";
    let run = piped(&image, lines, &[]);
    let wanted =
        "nord: standard input line 3: user give FLOCK 200: refused (10): unreserved is below the pages to be given: 200 for FLOCK \
                  (200 pages needed, 48 are there)\n  script    no line is kept, and the image is as it was; with --keep-going the others are made\n";
    assert_eq!((run.status, run.err.as_str(), run.text()), (10, wanted, ""));
    let run = piped(&image, lines, &["--json"]);
    assert_eq!(
        objects(&run),
        [json!({
            "number": 10, "rule": 0, "line": 3, "text": "user give FLOCK 200", "needed": 200, "there": 48,
            "error": "unreserved is below the pages to be given: 200 for FLOCK (200 pages needed, 48 are there)",
        })]
    );
    assert!(std::fs::read(&image).unwrap() == before);
}

#[test]
fn with_keep_going_a_refused_line_alone_changes_nothing() {
    let (_folder, image) = sample();
    let lines =
        "user add FLOCK\nuser give FLOCK 20\nfile create FLOCK/LOG\nfile grow FLOCK/LOG 90\nuser add FLOCK\nfile grow FLOCK/LOG 3\n\
                 check\nfile delete DOCK/GONE\nuser add BERTH\n";
    let run = piped(&image, lines, &["--keep-going", "--json"]);
    assert_eq!(run.status, 9);
    let told = objects(&run);
    let numbers: Vec<_> = told.iter().map(|line| (line["line"].clone(), line["number"].clone())).collect();
    let wanted = [(1, 0), (2, 0), (3, 0), (4, 9), (5, 5), (6, 0), (7, 0), (8, 4), (9, 0)];
    assert_eq!(numbers, wanted.map(|(line, number)| (json!(line), json!(number))));
    assert_eq!(
        (&told[5]["pages"], &told[6]["visits"], &told[8]["user"]),
        (&json!(3), &json!(25), &json!(2))
    );
    assert_eq!(run.err.lines().count(), 3, "{}", run.err);
    let listed = done(&image, "list IMAGE");
    assert!(
        listed.ends_with("USER 1 FLOCK GIVEN 20 USED 4\nFILE 0 LOG: PAGES 3 INDEXED\nUSER 2 BERTH GIVEN 0 USED 0\n"),
        "{listed}"
    );
    assert_eq!(done(&image, "check IMAGE"), "sound: 25 of 154 pages are held\n");
}

#[test]
fn wrong_lines_are_told_before_any_is_run() {
    let (folder, image) = sample();
    for (line, words) in [
        ("usr add FLOCK", "usr add FLOCK: "),
        ("user add", "user add: "),
        ("user add 'FLOCK", "a quotation mark is not closed"),
        ("sample", "no line of a script"),
        ("run", "no line of a script"),
        ("format YARD --pages 20", "--pages makes a new image"),
        ("read DOCK/READS:DATA", "read in a script needs a host's file"),
        ("write DOCK/READS:DATA -", "write in a script needs a host's file"),
    ] {
        let out = folder.path("out.bin");
        let script = format!("read DOCK/READS:DATA {}\n{line}\n", out.display());
        let said = fails(
            &image,
            &format!("run IMAGE {}", folder.put("script", script.as_bytes()).display()),
            64,
        );
        assert!(said.contains("script line 2: ") && said.contains(words), "{said}");
        assert!(!out.exists(), "{line}");
    }
    fails(&image, &format!("run IMAGE {}", folder.path("gone").display()), 74);
    let binary = folder.put("binary", &[0xff, 0xfe]);
    fails(&image, &format!("run IMAGE {}", binary.display()), 64);
}

#[test]
fn lines_that_only_ask_leave_the_file() {
    let (_folder, image) = sample();
    let before = std::fs::metadata(&image).unwrap();
    let run = piped(&image, "check\nwho 5\naddress DOCK/READS:DATA 2\npage 2 16\nfind DOCK\n", &[]);
    assert_eq!((run.status, run.err.as_str()), (0, ""));
    assert!(run.text().starts_with("sound: 20 of 154 pages are held\n"), "{}", run.text());
    let after = std::fs::metadata(&image).unwrap();
    use std::os::unix::fs::MetadataExt;
    assert_eq!((before.ino(), before.mtime_nsec()), (after.ino(), after.mtime_nsec()));
    assert_eq!(piped(&image, "", &[]).text(), "");
}

/// Every call that changes has a line, a salvage can be the first, and later lines see what earlier ones have left.
#[test]
fn every_change_can_be_a_line() {
    let (folder, image) = sample();
    let mut bytes = std::fs::read(&image).unwrap();
    bytes[77 * 2048 + 2] = 1;
    std::fs::write(&image, &bytes).unwrap();
    let file = folder.put("a.bin", &[7; 3000]);
    let out = folder.path("out");
    let lines = format!(
        "salvage\nuser add FLOCK\nuser give FLOCK 12\nimport FLOCK {0}\nwrite FLOCK/B:BIN {0}\nfile create FLOCK/C --contiguous 2\n\
         convert --to zeros\nfile delete FLOCK/C\nuser take FLOCK 1\nexport FLOCK {1}\nmap --width 40\nconvert --to apostrophe\n\
         file delete FLOCK/B:BIN\nfile delete FLOCK/A:BIN\nuser delete FLOCK\n",
        file.display(),
        out.display()
    );
    let run = piped(&image, &lines, &["--json"]);
    assert_eq!((run.status, run.err.as_str()), (0, ""), "{}", run.text());
    assert_eq!(objects(&run).len(), 15);
    assert_eq!(std::fs::read(out.join("A.BIN")).unwrap().len(), 4096);
    assert_eq!(std::fs::read_dir(&out).unwrap().count(), 2);
    assert!(done(&image, "list IMAGE").ends_with("FILE 1 LAMBS:DATA PAGES 10 CONTIGUOUS\n"));
    done(&image, "check IMAGE");
    let run = piped(&image, "format NEW --force\nuser add ONE\nlist\n", &[]);
    assert!(run.text().ends_with("USER 0 ONE GIVEN 0 USED 0\n"), "{}{}", run.text(), run.err);
}

#[test]
fn a_thousand_lines_are_one_list() {
    let (folder, image) = disk(4096, 4000);
    let file = folder.put("page.bin", &[9; 2048]);
    let mut lines = String::new();
    for number in 0..250 {
        lines += &format!(
            "file create DOCK/F-{number}\nfile grow DOCK/F-{number} 3\nfile open DOCK/F-{number}\nwrite DOCK/F-{number} {}\n",
            file.display()
        );
    }
    let run = piped(&image, &lines, &[]);
    assert_eq!((run.status, run.err.as_str(), run.text().lines().count()), (0, "", 1000));
    assert!(run.text().ends_with("DOCK/F-249: replaced: 1 page\n"));
    let listed = done(&image, "list IMAGE");
    assert!(listed.ends_with("FILE 249 F-249: PAGES 1 INDEXED\n"), "{listed}");
}

/// The lines before a refused one are in no image, also where a line of several calls was half done.
#[test]
fn unsound_images_and_wrong_lengths_are_refused_by_the_first_line() {
    let folder = Folder::new();
    let image = folder.put("noise.img", &crate::common::noise(3, 16 * 2048));
    let run = piped(&image, "user add FLOCK\n", &[]);
    assert_eq!(run.status, 3);
    assert!(
        run.err
            .starts_with("nord: standard input line 1: user add FLOCK: refused (3): the image is unsound"),
        "{}",
        run.err
    );
    let image = folder.put("short.img", &[0; 5000]);
    let run = piped(&image, "list\n", &[]);
    assert_eq!(run.status, 1);
    assert!(run.err.contains("5000 bytes, 2 pages and 904 bytes over"), "{}", run.err);
    assert_eq!(crate::common::run(&image, "run IMAGE -").status, 0);
}
