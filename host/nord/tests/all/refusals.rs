//! Every refusal but 3, 12, 13 and 14 (broken.rs, convert.rs and salvage.rs have those; 14 no command can meet): its number as exit status, its words, the image unchanged.

use crate::common::{disk, done, fails, noise, run, sample, Folder};
use serde_json::json;
use std::path::Path;

#[test]
fn number_1_for_lengths() {
    let folder = Folder::new();
    for bytes in [0, 1, 7 * 2048, 8 * 2048 + 1, 8 * 2048 + 2, 9 * 2048 - 2048 / 2] {
        let image = folder.put("short.img", &vec![0; bytes]);
        assert!(fails(&image, "check IMAGE", 1).starts_with("nord: refused (1): the length is no whole number of pages"));
        fails(&image, "user add IMAGE DOCK", 1);
    }
    let image = folder.path("long.img");
    std::fs::File::create(&image).unwrap().set_len(140_734 * 2048).unwrap();
    let said = run(&image, "list IMAGE");
    assert_eq!(said.status, 1);
    assert!(
        said.err
            .ends_with("fewer than 8 or more than 140,733 pages (the image has 288223232 bytes, 140734 pages)\n"),
        "{}",
        said.err
    );
    let huge = folder.path("huge.img");
    std::fs::File::create(&huge).unwrap().set_len(1 << 40).unwrap();
    assert_eq!(run(&huge, "check IMAGE").status, 1);
    assert_eq!(run(&folder.path("new.img"), "format IMAGE YARD --pages 7").status, 1);
    let said = run(&folder.path("new.img"), "format IMAGE YARD --pages 140734");
    assert_eq!(said.status, 1);
    assert!(
        said.err.ends_with("more than 140,733 pages (140734 pages asked for)\n"),
        "{}",
        said.err
    );
    assert_eq!(run(&folder.path("new.img"), "format IMAGE YARD --pages 99999999999").status, 1);
    assert_eq!(folder.names(), ["huge.img", "long.img", "short.img"]);
}

#[test]
fn number_2_for_arguments() {
    let (_folder, image) = sample();
    for line in [
        "user add IMAGE dock",
        "user add IMAGE ABCDEFGHIJKLMNOPQ",
        "format IMAGE A_B",
        "format IMAGE YARD --bit-page 0",
        "format IMAGE YARD --bit-page 154",
        "find IMAGE DOCK/READS:TYPES",
        "file create IMAGE DOCK/A/B",
        "user give IMAGE DOCK 0",
        "user give IMAGE DOCK 140734",
        "user take IMAGE DOCK 140734",
        "file create IMAGE DOCK/BIG --contiguous 140734",
        "user give IMAGE DOCK 99999999999999",
        "user take IMAGE @256 1",
        "file delete IMAGE @0/@256",
        "file grow IMAGE @4294967296/@0",
        "file create IMAGE DOCK/BIG --contiguous 0",
        "read IMAGE @0/@256",
        "who IMAGE 154",
    ] {
        assert!(fails(&image, line, 2).contains("refused (2): an argument is wrong ("), "{line}");
    }
    // A count is told as it was typed, however large it is.
    for (line, told) in [
        ("user give IMAGE DOCK 4294967297", ": 4294967297 for DOCK\n"),
        (
            "file create IMAGE DOCK/BIG --contiguous 4294967297",
            ": DOCK/BIG: (4294967297 pages asked for)\n",
        ),
        ("who IMAGE 4294967300", ": page 4294967300 of 154\n"),
    ] {
        let said = fails(&image, line, 2);
        assert!(said.ends_with(told), "{said}");
    }
    assert!(fails(&image, "find IMAGE dock", 2).ends_with("dock (names are in capitals)\n"));
    let said = fails(&image, "format IMAGE YARD --bit-page 154", 2);
    assert!(
        said.ends_with("number of pages): the bit file would be page 154, and pages 1 to 153 are there for it\n"),
        "{said}"
    );
}

#[test]
fn numbers_4_to_7() {
    let (_folder, image) = sample();
    done(&image, "file create IMAGE DOCK/EMPTY");
    for (line, number, words) in [
        ("find IMAGE FLOCK", 4, "there is no such user: FLOCK"),
        ("find IMAGE FLOCK/READS", 4, "there is no such user: FLOCK"),
        ("find IMAGE DOCK/READS", 4, "there is no such file: DOCK/READS:"),
        ("read IMAGE @0/@9", 4, "there is no such file: @0/@9"),
        ("read IMAGE @9/@0", 4, "there is no such file: @9/@0"),
        (
            "address IMAGE DOCK/READS:DATA 3",
            4,
            "or it has no such page position: position 3 of DOCK/READS:DATA",
        ),
        ("user delete IMAGE @1", 4, "there is no such user: @1"),
        ("file open IMAGE @0/@7", 4, "there is no such file: @0/@7"),
        ("file create IMAGE FLOCK/READS", 4, "there is no such user: FLOCK"),
        ("user add IMAGE DOCK", 5, "the name is taken: DOCK"),
        ("file create IMAGE DOCK/READS:DATA", 5, "the name is taken: DOCK/READS:DATA"),
        (
            "file grow IMAGE DOCK/LAMBS:DATA",
            6,
            "a contiguous file does not grow: DOCK/LAMBS:DATA",
        ),
        ("file shrink IMAGE DOCK/LAMBS:DATA", 6, "a contiguous file does not shrink"),
        ("file shrink IMAGE DOCK/EMPTY", 6, "nor does an empty one: DOCK/EMPTY:"),
        ("file shrink IMAGE DOCK/READS:DATA 4", 6, "(page 4 of 4 to shrink by)"),
        ("user delete IMAGE DOCK", 7, "the user has a file: DOCK"),
    ] {
        let said = fails(&image, line, number);
        assert!(
            said.starts_with(&format!("nord: refused ({number}): ")) && said.contains(words),
            "{line}: {said}"
        );
    }
}

#[test]
fn number_8_when_all_entries_are_used() {
    let (_folder, image) = disk(200, 10);
    let mut words = nord::store::words(&std::fs::read(&image).unwrap());
    for number in 0..256 {
        assert_eq!(
            proved::create_indexed(&mut words, 0, format!("F{number}").as_bytes(), b"", 0).number,
            0
        );
        assert_eq!(
            proved::create_user(&mut words, format!("U{number}").as_bytes()).number,
            if number < 255 { 0 } else { 8 }
        );
    }
    std::fs::write(&image, nord::store::bytes(&words)).unwrap();
    assert!(fails(&image, "user add IMAGE FLOCK", 8).contains("all 256 entries are used: FLOCK"));
    assert!(fails(&image, "file create IMAGE DOCK/FLOCK", 8).contains("all 256 entries are used: DOCK/FLOCK:"));
}

/// Commands on the sample disk that want more than there is: their numbers and how the words begin.
const TOO_MUCH: [(&str, i32, &str); 6] = [
    (
        "file grow IMAGE DOCK/READS:DATA 87",
        9,
        "given less used is below the pages needed: DOCK/READS:DATA (1 page needed, 0 are there) (page 87 of 87 to grow by)",
    ),
    (
        "user take IMAGE DOCK 87",
        9,
        "given less used is below the pages to be taken back: 87 for DOCK (87 pages needed, 86 are there)",
    ),
    (
        "file create IMAGE DOCK/LONG --contiguous 87",
        9,
        "given less used is below the pages needed: DOCK/LONG: (87 pages needed, 86 are there)",
    ),
    (
        "user give IMAGE DOCK 49",
        10,
        "unreserved is below the pages to be given: 49 for DOCK (49 pages needed, 48 are there)",
    ),
    (
        "user give IMAGE DOCK 140733",
        10,
        "unreserved is below the pages to be given: 140733 for DOCK (140733 pages needed, 48 are there)",
    ),
    (
        "file create IMAGE DOCK/LONG --contiguous 70",
        11,
        "there is no run of that many free pages for a contiguous file",
    ),
];

#[test]
fn numbers_9_to_11() {
    let (_folder, image) = sample();
    for (line, number, words) in TOO_MUCH {
        let said = fails(&image, line, number);
        assert!(said.starts_with(&format!("nord: refused ({number}): {words}")), "{line}: {said}");
    }
    done(&image, "file grow IMAGE DOCK/READS:DATA 86");
    let (_folder, full) = disk(8, 3);
    let said = fails(&full, "file create IMAGE DOCK/READS", 10);
    let wanted = "unreserved is below the system pages needed: DOCK/READS: (1 page needed, 0 are there)\n";
    assert!(said.ends_with(wanted), "{said}");
}

#[test]
fn a_refusal_as_json_has_number_rule_and_words() {
    let (_folder, image) = sample();
    let run = run(&image, "user add IMAGE DOCK --json");
    assert_eq!(run.json(), json!({ "number": 5, "rule": 0, "error": "the name is taken: DOCK" }));
    assert_eq!((run.status, run.err.as_str()), (5, "nord: refused (5): the name is taken: DOCK\n"));
}

#[test]
fn a_wrong_use_is_64_so_that_2_is_always_a_refusal() {
    let (_folder, image) = sample();
    for line in [
        "",
        "chek IMAGE",
        "check",
        "who IMAGE -3",
        "who IMAGE five",
        "read IMAGE DOCK",
        "user give IMAGE DOCK/READS 5",
        "file create IMAGE DOCK/A --created 4294967296",
        "find IMAGE @0",
    ] {
        assert_eq!(run(&image, line).status, 64, "{line}");
    }
    fails(&image, "file create IMAGE DOCK/@3", 64);
    fails(&image, "file grow IMAGE DOCK/READS:DATA 0", 64);
    fails(&image, "read IMAGE DOCK/READS:DATA --json", 64);
    let itself = format!("read IMAGE DOCK/READS:DATA {}", image.display());
    assert!(fails(&image, &itself, 64).contains("is the image itself"));
}

#[test]
fn noise_is_refused_and_stays() {
    let folder = Folder::new();
    for seed in 0..8 {
        let image = folder.put("noise.img", &noise(seed, 16 * 2048));
        assert_eq!(run(&image, "check IMAGE").status, 3);
        fails(&image, "user add IMAGE DOCK", 3);
    }
    assert!(Path::new(&folder.path("noise.img")).exists());
}
