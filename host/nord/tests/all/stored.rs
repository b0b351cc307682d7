//! Names and types as they stand in the image file: what is written, and that zeros or leftovers behind a name change no answer.

use crate::common::{done, fails, noise, run, sample, Folder};
use std::path::{Path, PathBuf};

/// The fields of the disk that `edges` makes: page, word, bytes.
const FIELDS: [(usize, usize, &[u8]); 12] = [
    (0, 1008, b"YARD'\0\0\0\0\0\0\0\0\0\0\0"),
    (2, 1, b"DOCK'\0\0\0\0\0\0\0\0\0\0\0"),
    (2, 33, b"FIFTEEN-LETTERS'"),
    (2, 65, b"EIGHTEEN-LETTERS"),
    (4, 1, b"LOG'\0\0\0\0\0\0\0\0\0\0\0\0"),
    (4, 9, b"'\0\0\0"),
    (4, 33, b"READS'\0\0\0\0\0\0\0\0\0\0"),
    (4, 41, b"DATA"),
    (4, 65, b"FIFTEEN-LETTERS'"),
    (4, 73, b"TXT'"),
    (4, 97, b"EIGHTEEN-LETTERS"),
    (4, 105, b"X'\0\0"),
];

const USERS: [&str; 3] = ["DOCK", "FIFTEEN-LETTERS", "EIGHTEEN-LETTERS"];
const FILES: [&str; 4] = ["DOCK/LOG", "DOCK/READS:DATA", "DOCK/FIFTEEN-LETTERS:TXT", "DOCK/EIGHTEEN-LETTERS:X"];

const LISTING: &str = "VOLUME YARD PAGES 154 RESERVED 11 UNRESERVED 98
USER 0 DOCK GIVEN 50 USED 5
FILE 0 LOG: PAGES 0 EMPTY
FILE 1 READS:DATA PAGES 0 EMPTY
FILE 2 FIFTEEN-LETTERS:TXT PAGES 3 CONTIGUOUS
FILE 3 EIGHTEEN-LETTERS:X PAGES 2 CONTIGUOUS
USER 1 FIFTEEN-LETTERS GIVEN 0 USED 0
USER 2 EIGHTEEN-LETTERS GIVEN 0 USED 0
";

/// A disk with names and types of many lengths, as the command writes it.
fn edges() -> (Folder, PathBuf) {
    let folder = Folder::new();
    let image = folder.path("disk.img");
    done(&image, "format IMAGE YARD --pages 154");
    USERS.iter().for_each(|user| _ = done(&image, &format!("user add IMAGE {user}")));
    done(&image, "user give IMAGE DOCK 50");
    for (file, size) in FILES.iter().zip(["", "", " --contiguous 3", " --contiguous 2"]) {
        done(&image, &format!("file create IMAGE {file}{size}"));
    }
    (folder, image)
}

/// So many bytes of an image file from a word of a page on.
fn field(image: &Path, page: usize, word: usize, count: usize) -> Vec<u8> {
    std::fs::read(image).unwrap()[2 * (1024 * page + word)..][..count].to_vec()
}

/// The image with each field made another one, beside it.
fn refilled(folder: &Folder, image: &Path, fill: impl Fn(&[u8]) -> Vec<u8>) -> PathBuf {
    let mut bytes = std::fs::read(image).unwrap();
    for (page, word, field) in FIELDS {
        let other = fill(field);
        bytes[2 * (1024 * page + word)..][..field.len()].copy_from_slice(&other);
    }
    folder.put("refilled.img", &bytes)
}

/// The field as it was written before: zeros alone behind the name.
fn zeros(field: &[u8]) -> Vec<u8> {
    field.iter().map(|byte| if *byte == b'\'' { 0 } else { *byte }).collect()
}

/// The field with text behind the byte that ends the name, which is made `end`.
fn leftovers(field: &[u8], end: u8) -> Vec<u8> {
    let mut other = field.to_vec();
    if let Some(at) = field.iter().position(|byte| *byte == b'\'') {
        let behind = b"s OLD'\xff\0PACK".iter().cycle();
        other[at] = end;
        other[at + 1..].iter_mut().zip(behind).for_each(|(byte, left)| *byte = *left);
    }
    other
}

/// A fill that a field is given, by name.
type Fill = (&'static str, fn(&[u8]) -> Vec<u8>);

const FILLS: [Fill; 3] = [
    ("zeros", zeros),
    ("an apostrophe, then leftovers", |field| leftovers(field, b'\'')),
    ("a zero byte, then leftovers", |field| leftovers(field, 0)),
];

#[test]
fn a_short_name_is_written_with_one_apostrophe_and_zeros() {
    let (_folder, image) = edges();
    for (page, word, bytes) in FIELDS {
        assert_eq!(field(&image, page, word, bytes.len()), bytes, "page {page}, word {word}");
    }
    assert_eq!(done(&image, "list IMAGE"), LISTING);
    assert_eq!(done(&image, "check IMAGE"), "sound: 11 of 154 pages are held\n");
}

#[test]
fn nothing_of_what_stood_there_is_left_behind_a_name_that_is_written() {
    let (folder, image) = edges();
    let image = refilled(&folder, &image, |field| leftovers(field, b'\''));
    done(&image, "file delete IMAGE DOCK/LOG");
    done(&image, "file create IMAGE DOCK/LO:G");
    assert_eq!(field(&image, 4, 1, 16), b"LO'\0\0\0\0\0\0\0\0\0\0\0\0\0");
    assert_eq!(field(&image, 4, 9, 4), b"G'\0\0");
    done(&image, "user delete IMAGE FIFTEEN-LETTERS");
    done(&image, "user add IMAGE FLOCK");
    assert_eq!(field(&image, 2, 33, 16), b"FLOCK'\0\0\0\0\0\0\0\0\0\0");
    let noisy = folder.put("noise.img", &noise(5, 16 * 2048));
    done(&noisy, "format IMAGE YARD");
    assert_eq!(field(&noisy, 0, 1008, 16), b"YARD'\0\0\0\0\0\0\0\0\0\0\0");
}

#[test]
fn other_fills_change_no_answer() {
    let (folder, image) = edges();
    for (name, fill) in FILLS {
        let other = refilled(&folder, &image, fill);
        assert_ne!(std::fs::read(&image).unwrap(), std::fs::read(&other).unwrap());
        let asked = USERS.iter().chain(&FILES).map(|name| format!("find IMAGE {name}"));
        let lines = [
            "check IMAGE",
            "list IMAGE",
            "list IMAGE --json",
            "map IMAGE",
            "map IMAGE --json",
            "who IMAGE 153",
            "address IMAGE DOCK/EIGHTEEN-LETTERS:X 1",
        ];
        for line in lines.into_iter().map(str::to_string).chain(asked) {
            let said = done(&other, &line);
            assert_eq!(said, done(&image, &line), "{name}: {line}");
            assert!(!said.contains('\''), "{name}: {line}: {said}");
        }
        assert_eq!(done(&other, "list IMAGE"), LISTING, "{name}");
    }
}

#[test]
fn a_name_is_taken_whatever_its_fill() {
    let (folder, image) = edges();
    for (_, fill) in FILLS {
        let image = refilled(&folder, &image, fill);
        for user in USERS {
            let said = fails(&image, &format!("user add IMAGE {user}"), 5);
            assert_eq!(said, format!("nord: refused (5): the name is taken: {user}\n"));
        }
        for file in FILES {
            fails(&image, &format!("file create IMAGE {file}"), 5);
            fails(&image, &format!("file create IMAGE {file} --contiguous 2"), 5);
        }
        done(&image, "file create IMAGE DOCK/LOG:DATA");
        done(&image, "file create IMAGE DOCK/READS");
    }
}

#[test]
fn a_name_that_is_there_stays_as_it_is() {
    let (folder, image) = edges();
    for (name, fill) in FILLS {
        let image = refilled(&folder, &image, fill);
        for line in [
            "user add IMAGE FLOCK",
            "user give IMAGE DOCK 3",
            "user take IMAGE DOCK 1",
            "file create IMAGE DOCK/NEW:TEXT",
            "file grow IMAGE DOCK/LOG 3",
            "file shrink IMAGE DOCK/LOG",
            "file open IMAGE DOCK/READS:DATA",
            "file delete IMAGE DOCK/NEW:TEXT",
        ] {
            done(&image, line);
        }
        for (page, word, bytes) in FIELDS {
            assert_eq!(
                field(&image, page, word, bytes.len()),
                fill(bytes),
                "{name}: page {page}, word {word}"
            );
        }
        assert_eq!(field(&image, 2, 97, 16), b"FLOCK'\0\0\0\0\0\0\0\0\0\0", "{name}");
        done(&image, "check IMAGE");
    }
}

#[test]
fn a_type_may_begin_with_its_end() {
    let (_folder, image) = sample();
    let mut bytes = std::fs::read(&image).unwrap();
    for end in *b"'\0" {
        bytes[2 * (4 * 1024 + 9)] = end;
        std::fs::write(&image, &bytes).unwrap();
        assert!(done(&image, "list IMAGE").contains("\nFILE 0 READS: PAGES 3 INDEXED\n"));
        assert_eq!(done(&image, "find IMAGE DOCK/READS"), "user 0 file 0\n");
        fails(&image, "find IMAGE DOCK/READS:DATA", 4);
        fails(&image, "find IMAGE DOCK/READS:ATA", 4);
    }
}

#[test]
fn an_apostrophe_in_an_argument_is_refused_and_told() {
    let (_folder, image) = sample();
    for (line, name) in [
        ("format IMAGE YARD'", "YARD'"),
        ("format IMAGE '", "'"),
        ("user add IMAGE FLOCK'", "FLOCK'"),
        ("user add IMAGE FLO'CK", "FLO'CK"),
        ("find IMAGE DOCK'", "DOCK'"),
        ("user give IMAGE DOCK' 3", "DOCK'"),
        ("find IMAGE DOCK/READS':DATA", "DOCK/READS':DATA"),
        ("find IMAGE DOCK/READS:DAT'", "DOCK/READS:DAT'"),
        ("file create IMAGE DOCK/NEW'", "DOCK/NEW':"),
        ("file create IMAGE DOCK/NEW:'", "DOCK/NEW:'"),
        ("file create IMAGE @0/NEW:A' --contiguous 3", "@0/NEW:A'"),
        ("file create IMAGE DOCK'/NEW", "DOCK'"),
    ] {
        let said = fails(&image, line, 2);
        assert!(
            said.starts_with("nord: refused (2): an argument is wrong (a name is 1 to 16 of A-Z, 0-9 and hyphen"),
            "{said}"
        );
        let told = format!("): {name} (an apostrophe ends a short name in an image and is no part of it)\n");
        assert!(said.ends_with(&told), "{line}: {said}");
    }
    let json = run(&image, "user add IMAGE DOCK' --json").json();
    assert_eq!((&json["number"], &json["rule"]), (&2.into(), &0.into()));
    assert!(json["error"].as_str().unwrap().ends_with("and is no part of it)"), "{json}");
}
