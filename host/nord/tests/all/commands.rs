//! What each command answers when it is done, in words and as JSON.

use crate::common::{done, run, sample, Folder};
use serde_json::{json, Value};
use std::path::Path;

#[test]
fn the_yard_example_lists_as_document_01_says() {
    let folder = Folder::new();
    let image = folder.path("disk.img");
    assert_eq!(
        done(&image, "format IMAGE YARD --pages 16"),
        "volume YARD of 16 pages, bit file on page 8\n"
    );
    assert_eq!(done(&image, "user add IMAGE DOCK"), "user 0 DOCK added\n");
    assert_eq!(done(&image, "user give IMAGE DOCK 5"), "5 pages given to user 0\n");
    assert_eq!(done(&image, "file create IMAGE DOCK/READS:DATA"), "user 0 file 0 created\n");
    assert_eq!(done(&image, "file grow IMAGE DOCK/READS:DATA"), "grown by 1 page: 5\n");
    let listing = "VOLUME YARD PAGES 16 RESERVED 8 UNRESERVED 5\nUSER 0 DOCK GIVEN 5 USED 2\nFILE 0 READS:DATA PAGES 1 INDEXED\n";
    assert_eq!(done(&image, "list IMAGE"), listing);
}

#[test]
fn the_sample_disk_answers() {
    let (_folder, image) = sample();
    let ask = |line: &str| done(&image, line);
    assert_eq!(ask("check IMAGE"), "sound: 20 of 154 pages are held\n");
    assert_eq!(ask("find IMAGE DOCK"), "user 0\n");
    assert_eq!(ask("find IMAGE DOCK/LAMBS:DATA"), "user 0 file 1\n");
    assert_eq!(ask("address IMAGE DOCK/READS:DATA 2"), "page 8\n");
    assert_eq!(ask("address IMAGE DOCK/LAMBS:DATA 9"), "page 153\n");
    assert_eq!(ask("who IMAGE 0"), "master\n");
    assert_eq!(ask("who IMAGE 77"), "bit file\n");
    assert_eq!(ask("who IMAGE 2"), "user page 0\n");
    assert_eq!(ask("who IMAGE 8"), "data page 2 of DOCK/READS:DATA (user 0 file 0)\n");
    assert_eq!(ask("who IMAGE 6"), "index block 0 of DOCK/READS:DATA (user 0 file 0)\n");
    assert_eq!(ask("who IMAGE 100"), "free\n");
}

#[test]
fn asking_changes_nothing() {
    let (folder, image) = sample();
    let before = std::fs::read(&image).unwrap();
    for line in [
        "check IMAGE",
        "list IMAGE",
        "find IMAGE DOCK",
        "address IMAGE @0/@0 0",
        "who IMAGE 5",
        "page IMAGE 5",
        "page IMAGE 5 6",
        "read IMAGE DOCK/READS:DATA",
    ] {
        run(&image, line);
        assert_eq!(std::fs::read(&image).unwrap(), before, "{line}");
    }
    assert_eq!(folder.names(), ["disk.img"]);
}

#[test]
fn changes_are_in_the_listing() {
    let (folder, image) = sample();
    let change = |line: &str| done(&image, line);
    assert_eq!(change("file shrink IMAGE DOCK/READS:DATA 2"), "shrunk by 2 pages\n");
    assert_eq!(change("file delete IMAGE DOCK/LAMBS:DATA"), "user 0 file 1 deleted\n");
    assert_eq!(
        change("file create IMAGE DOCK/RAMS --contiguous 4 --created 77"),
        "user 0 file 1 created\n"
    );
    assert_eq!(change("file open IMAGE DOCK/RAMS:"), "user 0 file 1: an open is noted\n");
    assert_eq!(change("user take IMAGE DOCK 50"), "50 pages taken from user 0\n");
    assert_eq!(change("user add IMAGE FLOCK"), "user 1 FLOCK added\n");
    assert_eq!(change("user delete IMAGE FLOCK"), "user 1 deleted\n");
    let listing = "VOLUME YARD PAGES 154 RESERVED 12 UNRESERVED 98\nUSER 0 DOCK GIVEN 50 USED 6\n\
                   FILE 0 READS:DATA PAGES 1 INDEXED\nFILE 1 RAMS: PAGES 4 CONTIGUOUS\n";
    assert_eq!(change("list IMAGE"), listing);
    let json = run(&image, "list IMAGE --json").json();
    assert_eq!(
        (&json["users"][0]["files"][1]["opens"], &json["users"][0]["files"][1]["created"]),
        (&json!(1), &json!(77))
    );
    assert_eq!(folder.names(), ["disk.img"]);
}

#[test]
fn format_as_it_stands_keeps_the_size() {
    let (_folder, image) = sample();
    assert_eq!(
        done(&image, "format IMAGE BERTH --bit-page 3 --force"),
        "volume BERTH of 154 pages, bit file on page 3\n"
    );
    assert_eq!(done(&image, "list IMAGE"), "VOLUME BERTH PAGES 154 RESERVED 2 UNRESERVED 152\n");
}

/// Runs lines one after the other on one image, and compares each answer.
fn answers(image: &Path, lines: &[(&str, Value)]) {
    for (line, wanted) in lines {
        let run = run(image, &format!("{line} --json"));
        assert_eq!((&run.json(), run.status, run.err.as_str()), (wanted, 0, ""), "{line}");
    }
}

#[test]
fn what_is_asked_has_json() {
    let (_folder, image) = sample();
    let file = json!({ "number": 0, "page": 153, "holder": "data page", "kind": 10, "user": 0, "file": 1, "position": 9 });
    answers(
        &image,
        &[
            ("check IMAGE", json!({ "number": 0, "sound": true, "visits": 20, "pages": 154 })),
            ("find IMAGE DOCK", json!({ "number": 0, "user": 0 })),
            ("find IMAGE DOCK/LAMBS:DATA", json!({ "number": 0, "user": 0, "file": 1 })),
            (
                "address IMAGE @0/@0 1",
                json!({ "number": 0, "page": 7, "user": 0, "file": 0, "position": 1 }),
            ),
            ("who IMAGE 153", file),
            (
                "who IMAGE 4",
                json!({ "number": 0, "page": 4, "holder": "object page", "kind": 7, "user": 0, "file": 0, "position": 0 }),
            ),
        ],
    );
    let listed = run(&image, "list IMAGE --json").json();
    assert_eq!(
        (&listed["name"], &listed["users"][0]["files"][1]["kind"]),
        (&json!("YARD"), &json!("CONTIGUOUS"))
    );
}

#[test]
fn what_is_changed_has_json() {
    let (_folder, image) = sample();
    answers(
        &image,
        &[
            ("user add IMAGE FLOCK", json!({ "number": 0, "user": 1, "name": "FLOCK" })),
            ("user give IMAGE FLOCK 9", json!({ "number": 0, "user": 1, "pages": 9 })),
            ("user take IMAGE FLOCK 9", json!({ "number": 0, "user": 1, "pages": 9 })),
            ("user delete IMAGE FLOCK", json!({ "number": 0, "user": 1 })),
            ("file create IMAGE DOCK/LOG", json!({ "number": 0, "user": 0, "file": 2 })),
            (
                "file grow IMAGE DOCK/LOG 2",
                json!({ "number": 0, "user": 0, "file": 2, "pages": 2, "data": [9, 11] }),
            ),
            (
                "file shrink IMAGE DOCK/LOG",
                json!({ "number": 0, "user": 0, "file": 2, "pages": 1 }),
            ),
            ("file open IMAGE DOCK/LOG", json!({ "number": 0, "user": 0, "file": 2 })),
            ("file delete IMAGE DOCK/LOG", json!({ "number": 0, "user": 0, "file": 2 })),
            (
                "format IMAGE YARD --force",
                json!({ "number": 0, "volume": "YARD", "pages": 154, "bit_page": 77, "bit_pages": 1 }),
            ),
        ],
    );
}

#[test]
fn what_is_read_written_and_made_has_json() {
    let (folder, image) = sample();
    let (out, input) = (folder.path("out.bin"), folder.put("in.bin", &[7; 3000]));
    let read = format!("read IMAGE DOCK/READS:DATA {}", out.display());
    let write = format!("write IMAGE DOCK/READS:DATA {}", input.display());
    answers(
        &image,
        &[
            (
                &read,
                json!({ "number": 0, "pages": 3, "bytes": 6144, "output": out.to_str().unwrap() }),
            ),
            (&write, json!({ "number": 0, "user": 0, "file": 0, "pages": 2, "created": false })),
        ],
    );
    answers(
        &folder.path("other.img"),
        &[("sample IMAGE", json!({ "number": 0, "volume": "YARD", "pages": 154 }))],
    );
}

#[test]
fn the_map_as_text_picture_and_json() {
    let (folder, image) = sample();
    for width in [20, 30, 40, 80] {
        let text = done(&image, &format!("map IMAGE --width {width}"));
        assert!(text.starts_with("YARD: ") && !text.contains('\u{1b}'), "{text}");
        assert!(text.lines().all(|line| line.chars().count() <= width), "{width}: {text}");
    }
    let narrow = run(&image, "map IMAGE --width 19");
    assert_eq!(narrow.status, 64);
    assert!(narrow.err.contains("a line of the map has 20 characters or more"), "{}", narrow.err);
    assert!(done(&image, "map IMAGE --colour always").contains('\u{1b}'));
    let picture = folder.path("map.svg");
    done(&image, &format!("map IMAGE --svg {}", picture.display()));
    assert!(std::fs::read_to_string(&picture).unwrap().starts_with("<svg "));
    let json = run(&image, "map IMAGE --json").json();
    let holders = json["holders"].as_array().unwrap();
    assert_eq!(
        (holders.len(), &holders[77]["holder"], &holders[153]["position"]),
        (154, &json!("bit file"), &json!(9))
    );
    let itself = format!("map IMAGE --svg {}", image.display());
    assert_eq!(run(&image, &itself).status, 64);
    assert_eq!(done(&image, "check IMAGE"), "sound: 20 of 154 pages are held\n");
}

#[test]
fn the_largest_image_and_the_smallest() {
    let folder = Folder::new();
    for pages in [8, 16384] {
        let image = folder.path(&format!("{pages}.img"));
        done(&image, &format!("format IMAGE YARD --pages {pages}"));
        assert_eq!(done(&image, "check IMAGE"), format!("sound: 2 of {pages} pages are held\n"));
    }
}
