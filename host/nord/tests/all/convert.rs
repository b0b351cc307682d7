//! Conversion of old volumes and back: what is changed and said, and what is in the way of it.

use crate::common::{disk, done, fails, run, sample, Folder};
use serde_json::{json, Value};
use std::fs;
use std::os::unix::fs::MetadataExt;
use std::path::{Path, PathBuf};

const TO_APOSTROPHE: &str = "convert IMAGE --to apostrophe";
const TO_ZEROS: &str = "convert IMAGE --to zeros";

/// The sample disk as it was before names were written with an apostrophe.
fn old() -> (Folder, PathBuf) {
    let (folder, image) = sample();
    done(&image, TO_ZEROS);
    (folder, image)
}

/// Puts bytes into an image file, from a word of a page on.
fn put(image: &Path, page: usize, word: usize, bytes: &[u8]) {
    let mut all = fs::read(image).unwrap();
    all[2 * (1024 * page + word)..][..bytes.len()].copy_from_slice(bytes);
    fs::write(image, all).unwrap();
}

/// A conversion that is refused with 12 and leaves the image file itself; gives what it says, without the line on where to look.
fn in_the_way(image: &Path, line: &str, place: &str) -> String {
    let inode = fs::metadata(image).unwrap().ino();
    let said = fails(image, line, 12);
    assert_eq!(fs::metadata(image).unwrap().ino(), inode, "{line}");
    let look = format!("  look at   nord page {} {place}\n", image.display());
    said.strip_suffix(&look).unwrap_or_else(|| panic!("{place}: {said}")).to_string()
}

/// The line of `nord page` on a word.
fn word(image: &Path, page: u32, word: u32) -> String {
    let lines = done(image, &format!("page IMAGE {page}"));
    let number = format!("  {word:>4} ");
    let line = lines.lines().find(|line| line.starts_with(&number));
    line.unwrap_or_else(|| panic!("no line for word {word}: {lines}")).to_string()
}

#[test]
fn to_zeros_and_back_is_the_same_file() {
    let (_folder, image) = sample();
    let (first, listing) = (fs::read(&image).unwrap(), done(&image, "list IMAGE"));
    assert_eq!(word(&image, 2, 3), "     3 (3)      023400     9984  '.");
    assert_eq!(
        done(&image, TO_ZEROS),
        "4 short names and types now end in zeros alone: the volume's name, 1 user's name, 2 files' names\n"
    );
    assert_eq!(word(&image, 2, 1), "     1 (1)      042117    17487  DO  name: DOCK");
    assert_eq!(word(&image, 2, 3), "     3 (3)      000000        0  ..");
    assert_eq!(done(&image, "check IMAGE"), "sound: 20 of 154 pages are held\n");
    assert_eq!(done(&image, "list IMAGE"), listing);
    assert_eq!(done(&image, "find IMAGE DOCK/LAMBS:DATA"), "user 0 file 1\n");
    assert_eq!(
        done(&image, TO_APOSTROPHE),
        "4 short names and types now end in an apostrophe: the volume's name, 1 user's name, 2 files' names\n"
    );
    assert!(fs::read(&image).unwrap() == first);
}

#[test]
fn only_the_bytes_that_end_a_name_change() {
    let (_folder, image) = sample();
    done(&image, "file create IMAGE DOCK/LOG");
    done(&image, "user add IMAGE FIFTEEN-LETTERS");
    done(&image, "file create IMAGE FIFTEEN-LETTERS/FIFTEEN-LETTERS:TXT");
    let before = fs::read(&image).unwrap();
    assert_eq!(
        done(&image, TO_ZEROS),
        "9 short names and types now end in zeros alone: the volume's name, 2 users' names, 4 files' names, 2 types\n"
    );
    let after = fs::read(&image).unwrap();
    let changed: Vec<usize> = (0..before.len()).filter(|at| before[*at] != after[*at]).collect();
    let byte = |page: usize, word: usize, byte: usize| 2 * (1024 * page + word) + byte;
    // The files of user 1 have the tenth page of the image for their entries.
    let (mut ends, users, files, his) = (vec![byte(0, 1008, 4)], 2, 4, 9);
    ends.extend([byte(users, 1, 4), byte(users, 33, 15)]);
    ends.extend([byte(files, 1, 5), byte(files, 33, 5), byte(files, 65, 3), byte(files, 73, 0)]);
    ends.extend([byte(his, 1, 15), byte(his, 9, 3)]);
    assert_eq!(changed, ends);
    assert!(changed.iter().all(|at| (before[*at], after[*at]) == (b'\'', 0)));
    done(&image, TO_APOSTROPHE);
    assert!(fs::read(&image).unwrap() == before);
}

#[test]
fn names_that_fill_their_fields_stay() {
    let folder = Folder::new();
    let image = folder.path("disk.img");
    done(&image, "format IMAGE SIXTEEN-LETTERS1 --pages 16");
    done(&image, "user add IMAGE EIGHTEEN-LETTERS");
    done(&image, "file create IMAGE EIGHTEEN-LETTERS/SIXTEEN-LETTERS2:DATA");
    let before = fs::read(&image).unwrap();
    for line in [TO_APOSTROPHE, TO_ZEROS, TO_ZEROS, TO_APOSTROPHE] {
        assert_eq!(done(&image, line), "nothing to change: no name or type is short\n");
        assert!(fs::read(&image).unwrap() == before, "{line}");
    }
    done(&image, "file create IMAGE EIGHTEEN-LETTERS/SIXTEEN-LETTERS2:DAT");
    assert_eq!(done(&image, TO_ZEROS), "1 short name or type now ends in zeros alone: 1 type\n");
    assert_eq!(
        done(&image, TO_APOSTROPHE),
        "1 short name or type now ends in an apostrophe: 1 type\n"
    );
}

#[test]
fn entries_that_are_not_used_stay() {
    let (_folder, image) = sample();
    done(&image, "user add IMAGE FLOCK");
    done(&image, "user delete IMAGE FLOCK");
    done(&image, "file create IMAGE DOCK/LOG");
    done(&image, "file delete IMAGE DOCK/LOG");
    put(&image, 2, 33, b"FLOCK'old\0");
    put(&image, 4, 65, b"LOG'");
    let before = fs::read(&image).unwrap();
    assert!(done(&image, TO_ZEROS).starts_with("4 short names"));
    let after = fs::read(&image).unwrap();
    for (page, word) in [(2, 32), (4, 64)] {
        let entry = |bytes: &[u8]| bytes[2 * (1024 * page + word)..][..64].to_vec();
        assert_eq!(entry(&before), entry(&after), "page {page}");
    }
    done(&image, TO_APOSTROPHE);
    assert!(fs::read(&image).unwrap() == before);
}

#[test]
fn what_was_converted_is_not_converted_again() {
    let (_folder, image) = sample();
    assert_eq!(
        in_the_way(&image, TO_APOSTROPHE, "0 1008"),
        "nord: refused (12): zeros alone are wanted behind every short name and type: the name of volume YARD ends in an apostrophe
  there     hexadecimal 27 00 00 00 00 00 00 00 00 00 00 00
  in all    4 of 4 short names and types are in the way
  hint      every short name and type ends in an apostrophe already: there is nothing to convert
"
    );
    done(&image, TO_ZEROS);
    assert_eq!(
        in_the_way(&image, TO_ZEROS, "0 1008"),
        "nord: refused (12): one apostrophe and then zeros are wanted behind every short name and type: the name of volume YARD has zeros alone \
         behind it
  there     hexadecimal 00 00 00 00 00 00 00 00 00 00 00 00
  in all    4 of 4 short names and types are in the way
  hint      every short name and type has zeros alone behind it already: there is nothing to convert
"
    );
}

#[test]
fn a_volume_with_both_fills_is_converted_neither_way() {
    let (_folder, image) = old();
    done(&image, "user add IMAGE FLOCK");
    let hint = "an apostrophe stands behind 1 of them, zeros alone behind 4: a volume with both is converted neither way";
    assert_eq!(
        in_the_way(&image, TO_APOSTROPHE, "2 33"),
        format!(
            "nord: refused (12): zeros alone are wanted behind every short name and type: the name of user 1 FLOCK ends in an apostrophe
  there     hexadecimal 27 00 00 00 00 00 00 00 00 00 00
  in all    1 of 5 short names and types is in the way
  hint      {hint}
"
        )
    );
    let said = in_the_way(&image, TO_ZEROS, "0 1008");
    assert!(said.contains(": the name of volume YARD has zeros alone behind it\n"), "{said}");
    assert!(
        said.contains(&format!(
            "  in all    4 of 5 short names and types are in the way\n  hint      {hint}\n"
        )),
        "{said}"
    );
}

/// What a conversion to apostrophes says is in the way, after one more line on the old sample disk.
fn first_in_the_way(lines: &[&str], place: &str) -> String {
    let (_folder, image) = old();
    lines.iter().for_each(|line| _ = done(&image, line));
    let said = in_the_way(&image, TO_APOSTROPHE, place);
    let first = said.lines().next().unwrap();
    let words = first.strip_prefix("nord: refused (12): zeros alone are wanted behind every short name and type: ");
    words.unwrap_or_else(|| panic!("{said}")).to_string()
}

#[test]
fn the_first_in_the_way_is_told_in_the_order_of_the_listing() {
    let file = "file create IMAGE DOCK/LOG:X";
    let user = "user add IMAGE FLOCK";
    assert_eq!(
        first_in_the_way(&[user, file], "4 65"),
        "the name of DOCK/LOG:X (user 0 file 2) ends in an apostrophe"
    );
    assert_eq!(
        first_in_the_way(&[user, "file create IMAGE FLOCK/A"], "2 33"),
        "the name of user 1 FLOCK ends in an apostrophe"
    );
    let full = "file create IMAGE DOCK/SIXTEEN-LETTERS1";
    assert_eq!(
        first_in_the_way(&[full, user], "4 73"),
        "the type of DOCK/SIXTEEN-LETTERS1: (user 0 file 2) ends in an apostrophe"
    );
    let users = [
        "user add IMAGE EIGHTEEN-LETTERS",
        "file create IMAGE EIGHTEEN-LETTERS/SIXTEEN-LETTERS1:A",
    ];
    assert_eq!(
        first_in_the_way(&users, "9 9"),
        "the type of EIGHTEEN-LETTERS/SIXTEEN-LETTERS1:A (user 1 file 0) ends in an apostrophe"
    );
}

#[test]
fn leftovers_are_in_the_way_both_ways_and_shown() {
    let (_folder, image) = old();
    put(&image, 2, 3, b"'s OLD\xff");
    let lines = "  there     hexadecimal 27 73 20 4F 4C 44 FF 00 00 00 00 00: leftovers s OLD.
  in all    1 of 4 short names and types is in the way
  hint      leftovers stand behind 1 of them: such a volume is converted neither way
";
    let wanted = "zeros alone are wanted behind every short name and type";
    assert_eq!(
        in_the_way(&image, TO_APOSTROPHE, "2 1"),
        format!("nord: refused (12): {wanted}: the name of user 0 DOCK has leftovers behind it\n{lines}")
    );
    assert!(word(&image, 2, 1).ends_with("  name: DOCK (leftovers behind it: s OLD.)"));
    put(&image, 0, 1010, b"'");
    let said = in_the_way(&image, TO_ZEROS, "2 1");
    assert!(
        said.contains("behind every short name and type: the name of user 0 DOCK has leftovers behind it\n"),
        "{said}"
    );
    assert!(said.contains("  in all    3 of 4 short names and types are in the way\n"), "{said}");
}

#[test]
fn one_byte_too_many_is_a_leftover() {
    for (bytes, shown) in [(b"''\0\0", "'"), (b"\0'\0\0", "'"), (b"\0\0\0X", "..X"), (b"'\0\0\0", "")] {
        let (_folder, image) = disk(16, 3);
        done(&image, "file create IMAGE DOCK/LOG");
        put(&image, 4, 9, bytes);
        match shown {
            "" => _ = done(&image, TO_ZEROS),
            _ => {
                let said = in_the_way(&image, TO_ZEROS, "4 9");
                assert!(
                    said.contains(": the type of DOCK/LOG: (user 0 file 0) has leftovers behind it\n"),
                    "{said}"
                );
                assert!(said.contains(&format!(": leftovers {shown}\n")), "{said}");
            }
        }
    }
}

#[test]
fn done_as_json() {
    let (_folder, image) = sample();
    let answer = |line: &str| {
        let run = run(&image, &format!("{line} --json"));
        assert_eq!((run.status, run.err.as_str()), (0, ""), "{line}");
        run.json()
    };
    let wanted = |to: &str| json!({ "number": 0, "to": to, "changed": 4, "volume": 1, "users": 1, "files": 2, "types": 0 });
    assert_eq!(answer(TO_ZEROS), wanted("zeros"));
    assert_eq!(answer(TO_APOSTROPHE), wanted("apostrophe"));
    done(&image, "format IMAGE SIXTEEN-LETTERS1 --force");
    let nothing = json!({ "number": 0, "to": "zeros", "changed": 0, "volume": 0, "users": 0, "files": 0, "types": 0 });
    assert_eq!(answer(TO_ZEROS), nothing);
}

/// A refusal with 12 as JSON, without its words, which are those on standard error.
fn refused(image: &Path, line: &str) -> Value {
    let run = run(image, &format!("{line} --json"));
    let mut json = run.json();
    let words = json.as_object_mut().unwrap().remove("error").unwrap();
    assert_eq!(run.status, 12);
    assert!(
        run.err.starts_with(&format!("nord: refused (12): {}\n", words.as_str().unwrap())),
        "{}",
        run.err
    );
    json
}

#[test]
fn refused_as_json() {
    let (_folder, image) = old();
    done(&image, "file create IMAGE DOCK/LOG");
    let mut wanted = json!({
        "number": 12, "rule": 0, "to": "apostrophe",
        "field": "name", "user": 0, "file": 2, "name": "LOG",
        "fill": "apostrophe", "behind": "27000000000000000000000000", "leftovers": null,
        "page": 4, "word": 65, "in_the_way": 2,
        "short": { "zeros": 4, "apostrophe": 2, "leftovers": 0 },
    });
    assert_eq!(refused(&image, TO_APOSTROPHE), wanted);
    put(&image, 4, 66, b"G\0");
    (wanted["field"], wanted["name"], wanted["behind"]) = ("type".into(), "".into(), "27000000".into());
    (wanted["word"], wanted["in_the_way"]) = (73.into(), 1.into());
    wanted["short"] = json!({ "zeros": 5, "apostrophe": 1, "leftovers": 0 });
    assert_eq!(refused(&image, TO_APOSTROPHE), wanted);
    put(&image, 4, 73, b"\0OL");
    let to_zeros = refused(&image, TO_ZEROS);
    assert_eq!(
        (&to_zeros["field"], &to_zeros["user"], &to_zeros["file"]),
        (&json!("volume"), &json!(null), &json!(null))
    );
    assert_eq!((&to_zeros["fill"], &to_zeros["in_the_way"]), (&json!("zeros"), &json!(6)));
    let left = refused(&image, TO_APOSTROPHE);
    assert_eq!(
        (&left["fill"], &left["behind"], &left["leftovers"]),
        (&json!("leftovers"), &json!("004F4C00"), &json!("OL"))
    );
}

#[test]
fn sizes_and_soundness_are_judged_before_the_fill() {
    let (folder, image) = sample();
    let mut bytes = fs::read(&image).unwrap();
    bytes[2 * 1022 + 3] += 1;
    let unsound = folder.put("unsound.img", &bytes);
    let said = fails(&unsound, TO_APOSTROPHE, 3);
    assert!(
        said.starts_with("nord: refused (3): the image is unsound: rule 10 is broken at page 0, word 1022\n"),
        "{said}"
    );
    fails(&unsound, TO_ZEROS, 3);
    let odd = folder.put("odd.img", &bytes[..8 * 2048 + 1]);
    let half = folder.put("half.img", &bytes[..8 * 2048 + 1024]);
    for line in [TO_APOSTROPHE, TO_ZEROS] {
        assert!(fails(&odd, line, 1).starts_with("nord: refused (1): the length is no whole number of pages"));
        assert!(fails(&half, line, 1).starts_with("nord: refused (1): the length is no whole number of pages"));
    }
    assert_eq!(folder.names(), ["disk.img", "half.img", "odd.img", "unsound.img"]);
}

#[test]
fn the_fill_has_to_be_told() {
    let (_folder, image) = sample();
    let before = fs::read(&image).unwrap();
    for line in [
        "convert IMAGE",
        "convert IMAGE --to",
        "convert IMAGE --to leftovers",
        "convert IMAGE zeros",
    ] {
        assert_eq!(run(&image, line).status, 64, "{line}");
    }
    assert!(fs::read(&image).unwrap() == before);
}

#[test]
fn every_user_and_file_of_a_full_volume() {
    let (_folder, image) = disk(700, 1);
    let mut words = nord::store::words(&fs::read(&image).unwrap());
    for number in 1..256 {
        assert_eq!(proved::create_user(&mut words, format!("U{number}").as_bytes()).number, 0);
    }
    for number in 0..256 {
        let (user, name) = (if number % 2 == 0 { 0 } else { 255 }, format!("F{number}"));
        assert_eq!(proved::create_indexed(&mut words, user, name.as_bytes(), b"", 0).number, 0);
    }
    fs::write(&image, nord::store::bytes(&words)).unwrap();
    let said = "769 short names and types now end in zeros alone: the volume's name, 256 users' names, 256 files' names, 256 types\n";
    assert_eq!(done(&image, TO_ZEROS), said);
    let (before, zeros) = (nord::store::bytes(&words), fs::read(&image).unwrap());
    assert_eq!(before.iter().zip(&zeros).filter(|(before, after)| before != after).count(), 769);
    done(&image, TO_APOSTROPHE);
    assert!(fs::read(&image).unwrap() == before);
}
