//! `nord rescue`: every file that is right is copied out, the others are told with the place of their fault, and nothing is written over.

use crate::broken::{with, Words};
use crate::common::{done, fails, noise, run, sample, Folder};
use serde_json::{json, Value};
use std::path::{Path, PathBuf};

/// The names below a folder, sorted.
fn tree(folder: &Path) -> Vec<String> {
    let mut names = Vec::new();
    let mut folders = vec![folder.to_path_buf()];
    while let Some(inner) = folders.pop() {
        for entry in std::fs::read_dir(inner).unwrap() {
            let path = entry.unwrap().path();
            match path.is_dir() {
                true => folders.push(path),
                false => names.push(path.strip_prefix(folder).unwrap().to_str().unwrap().to_string()),
            }
        }
    }
    names.sort();
    names
}

/// Copies out to `files`, and gives what is said; the image stays as it is.
fn rescue(folder: &Folder, image: &Path) -> String {
    let before = std::fs::read(image).unwrap();
    let said = done(image, &format!("rescue IMAGE {}", folder.path("files").display()));
    assert!(std::fs::read(image).unwrap() == before);
    said
}

/// The sample disk with a third file, of no type, a fourth that is empty, and a second user with a file.
fn five_files() -> (Folder, PathBuf) {
    let (folder, image) = sample();
    let note = folder.put("note", &noise(3, 3000));
    done(&image, &format!("write IMAGE DOCK/NOTE {}", note.display()));
    done(&image, "file create IMAGE DOCK/EMPTY:TEXT");
    done(&image, "user add IMAGE FLOCK");
    done(&image, "user give IMAGE FLOCK 20");
    done(&image, &format!("write IMAGE FLOCK/READS:DATA {}", note.display()));
    (folder, image)
}

const ALL: [&str; 5] = [
    "DOCK/EMPTY.TEXT",
    "DOCK/LAMBS.DATA",
    "DOCK/NOTE",
    "DOCK/READS.DATA",
    "FLOCK/READS.DATA",
];

#[test]
fn of_a_sound_image_all_files_are_copied_out() {
    let (folder, image) = five_files();
    let files = folder.path("files");
    assert_eq!(rescue(&folder, &image), format!("5 files copied out to {}\n", files.display()));
    assert_eq!(tree(&files), ALL);
    for name in ALL {
        let read = run(&image, &format!("read IMAGE {}", name.replace('.', ":"))).out;
        assert!(std::fs::read(files.join(name)).unwrap() == read, "{name}");
    }
    let again = format!(
        "5 files copied out to {} (5 there already with the same content)\n",
        files.display()
    );
    assert_eq!(rescue(&folder, &image), again);
}

#[test]
fn wrong_bits_and_counts_do_not_matter() {
    let (folder, image) = five_files();
    let image = with(
        &folder,
        &image,
        &[(77, 0, 0), (77, 5, 0xffff), (2, 17, 3), (0, 1023, 1), (2, 18, 9), (0, 1008, 0)],
    );
    fails(&image, "list IMAGE", 3);
    assert_eq!(
        rescue(&folder, &image),
        format!("5 files copied out to {}\n", folder.path("files").display())
    );
    assert_eq!(tree(&folder.path("files")), ALL);
}

/// Words of the sample disk, and what is said of the files that are left; the first has the place that check tells.
const LEFT: [(Words, &[&str]); 9] = [
    (
        &[(6, 2, 1), (6, 3, 4464)],
        &["DOCK/READS:DATA (user 0 file 0): rule 7 at page 6, word 2: position 1: pointer 70000 is no page of 154"],
    ),
    (
        &[(4, 29, 1)],
        &["DOCK/READS:DATA (user 0 file 0): rule 7 at page 4, word 28: bytes 1, not 6144"],
    ),
    (
        &[(4, 27, 0), (4, 29, 0)],
        &["DOCK/READS:DATA (user 0 file 0): rule 7 at page 4, word 30: page count 0 but a pointer"],
    ),
    (
        &[(4, 63, 145)],
        &["DOCK/LAMBS:DATA (user 0 file 1): rule 7 at page 4, word 62: pages 145 to 154 are not all below 154"],
    ),
    (
        &[(4, 34, 0x6d42)],
        &["DOCK/LAmBS:DATA (user 0 file 1): rule 6 at page 4, word 33: name is not legal"],
    ),
    (
        &[(4, 33, 0x5245), (4, 34, 0x4144)],
        &["DOCK/READS:DATA (user 0 file 1): rule 6 at page 4, word 33: name and type are file 0's too"],
    ),
    (
        &[(4, 49, 9)],
        &["DOCK/LAMBS:DATA (user 0 file 1): rule 6 at page 4, word 49: entry number 9, not 1"],
    ),
    (
        &[(2, 0, 0)],
        &[
            "@0/READS:DATA (user 0 file 0): rule 6 at page 4, word 0: owner 0 is not used",
            "@0/LAMBS:DATA (user 0 file 1): rule 6 at page 4, word 32: owner 0 is not used",
        ],
    ),
    (
        &[(6, 3, 147)],
        &[
            "DOCK/READS:DATA (user 0 file 0): rule 8 at page 147, word 0: page 147 is held by DOCK/LAMBS:DATA too",
            "DOCK/LAMBS:DATA (user 0 file 1): rule 8 at page 147, word 0: page 147 is held by DOCK/READS:DATA too",
        ],
    ),
];

#[test]
fn the_others_are_told_with_the_place_of_their_fault() {
    for (words, left) in LEFT {
        let (folder, image) = sample();
        let image = with(&folder, &image, words);
        let said = rescue(&folder, &image);
        let lines: Vec<&str> = said.lines().collect();
        assert_eq!(lines[..left.len()], *left);
        let first = left[0].split("(user 0 file ").nth(1).unwrap().split(')').next().unwrap();
        let copied = match left.len() {
            1 => "1 file",
            _ => "0 files",
        };
        let totals = format!(
            "{copied} copied out to {}, {} left: nord read {} @0/@{first} --unsound reads what can be read",
            folder.path("files").display(),
            left.len(),
            image.display()
        );
        assert_eq!(lines[left.len()..], [totals]);
        let place = left[0].split(": rule ").nth(1).unwrap().split(": ").next().unwrap();
        let check = fails(&image, "check IMAGE", 3);
        let told = format!("rule {}", place.replace(" at ", " is broken at "));
        assert!(check.contains(&format!("the image is unsound: {told}\n")), "{check}{said}");
    }
}

#[test]
fn the_folder_of_a_user_without_a_legal_name_is_his_index() {
    let (folder, image) = five_files();
    let image = with(&folder, &image, &[(2, 1, 0x2e2e)]);
    rescue(&folder, &image);
    let at = ["@0/EMPTY.TEXT", "@0/LAMBS.DATA", "@0/NOTE", "@0/READS.DATA", "FLOCK/READS.DATA"];
    assert_eq!(tree(&folder.path("files")), at);
}

/// FLOCK's name made DOCK too: his files do not go among the other's.
#[test]
fn two_users_with_one_name_have_two_folders() {
    let (folder, image) = five_files();
    let image = with(&folder, &image, &[(2, 33, 0x444f), (2, 34, 0x434b), (2, 35, 0x2700)]);
    rescue(&folder, &image);
    let at = [
        "@1/READS.DATA",
        "DOCK/EMPTY.TEXT",
        "DOCK/LAMBS.DATA",
        "DOCK/NOTE",
        "DOCK/READS.DATA",
    ];
    assert_eq!(tree(&folder.path("files")), at);
}

#[test]
fn what_may_hide_users_and_files_is_told() {
    let (folder, image) = sample();
    let image = with(&folder, &image, &[(3, 1, 200)]);
    let files = folder.path("files");
    let wanted = format!(
        "users or files may not be found: rule 5 at page 3, word 0: slot 0 of object index 0: pointer 200 is no page of 154\n\
         0 files copied out to {}\n",
        files.display()
    );
    assert_eq!(rescue(&folder, &image), wanted);
    assert!(!files.exists());
}

#[test]
fn nothing_is_written_over() {
    let (folder, image) = five_files();
    let files = folder.path("files");
    std::fs::create_dir_all(files.join("FLOCK")).unwrap();
    std::fs::write(files.join("FLOCK/READS.DATA"), b"mine").unwrap();
    let line = format!("rescue IMAGE {}", files.display());
    let said = fails(&image, &line, 74);
    let wanted = "FLOCK/READS.DATA: is there already, with other content: no file is copied out\n";
    assert!(said.ends_with(wanted), "{said}");
    assert_eq!(tree(&files), ["FLOCK/READS.DATA"]);
    assert_eq!(std::fs::read(files.join("FLOCK/READS.DATA")).unwrap(), b"mine");
    std::fs::remove_file(files.join("FLOCK/READS.DATA")).unwrap();
    std::os::unix::fs::symlink("nowhere", files.join("FLOCK/READS.DATA")).unwrap();
    fails(&image, &line, 74);
    assert_eq!(tree(&files), ["FLOCK/READS.DATA"]);
    std::fs::remove_file(files.join("FLOCK/READS.DATA")).unwrap();
    std::fs::remove_dir(files.join("FLOCK")).unwrap();
    std::fs::write(files.join("FLOCK"), b"no folder").unwrap();
    fails(&image, &line, 74);
    assert_eq!(tree(&files), ["FLOCK"]);
}

#[test]
fn what_a_killed_run_has_left_goes_away() {
    let (folder, image) = five_files();
    let files = folder.path("files");
    std::fs::create_dir_all(files.join("DOCK")).unwrap();
    for name in [".NOTE.nord-1234567", ".READS.DATA.nord-1", ".mine.nord-1"] {
        std::fs::write(files.join("DOCK").join(name), b"half").unwrap();
    }
    rescue(&folder, &image);
    let names = tree(&files);
    assert_eq!((&names[0][..], &names[1..]), ("DOCK/.mine.nord-1", &ALL.map(str::to_string)[..]));
}

#[test]
fn json_has_both_lists() {
    let (folder, image) = sample();
    let files = folder.path("files");
    let line = format!("rescue IMAGE {} --json", files.display());
    let sound: Value = run(&image, &line).json();
    assert_eq!(
        (&sound["sound"], &sound["left"], &sound["written"]),
        (&json!(true), &json!([]), &json!(2))
    );
    let image = with(&folder, &image, &[(6, 2, 1), (6, 3, 4464)]);
    let json = run(&image, &line).json();
    let path = |name: &str| files.join(name).to_str().unwrap().to_string();
    let wanted = json!({
        "number": 0, "sound": false, "rule": 7, "page": 6, "word": 2,
        "folder": files.to_str().unwrap(), "written": 0, "there": 1, "hidden": [],
        "copied": [{
            "user": 0, "file": 1, "user_name": "DOCK", "name": "LAMBS", "type": "DATA", "pages": 10, "path": path("DOCK/LAMBS.DATA"),
        }],
        "left": [{
            "user": 0, "file": 0, "user_name": "DOCK", "name": "READS", "type": "DATA", "pages": 3,
            "rule": 7, "page": 6, "word": 2, "fault": "position 1: pointer 70000 is no page of 154",
            "doubts": ["position 1: pointer 70000 is no page of 154"],
        }],
    });
    assert_eq!(json, wanted);
}

#[test]
fn a_wrong_length_is_refused() {
    let folder = Folder::new();
    let image = folder.put("short.img", &[0; 7 * 2048]);
    fails(&image, &format!("rescue IMAGE {}", folder.path("files").display()), 1);
    assert_eq!(folder.names(), ["short.img"]);
}
