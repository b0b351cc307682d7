//! Refusal 3: the lowest broken rule, its place, what stands there and what was expected, in words and as JSON.

use crate::common::{done, fails, run, sample, Folder};
use serde_json::json;
use std::path::{Path, PathBuf};

/// Words of the sample disk and what they become; the rule that this breaks, the place, and what `nord check` says of it.
struct Case {
    words: &'static [(usize, usize, u16)],
    rule: u32,
    place: (u32, u32),
    says: [&'static str; 3],
}

/// More than there is, which no salvage mends.
const GIVEN_TOO_MUCH: (usize, usize, u16) = (2, 14, 0xffff);

const CASES: [Case; 26] = [
    Case {
        words: &[(0, 1008, 0)],
        rule: 1,
        place: (0, 1008),
        says: [
            "volume name, words 1008-1015 of the master block",
            "octal 000000 051104 023400, decimal 0 21060 9984, then zeros: empty (leftovers behind it: .RD')",
            "1 to 16 of A-Z, 0-9 and hyphen, a shorter one ended by an apostrophe or a zero byte",
        ],
    },
    Case {
        words: &[(0, 1008, 0x2741)],
        rule: 1,
        place: (0, 1008),
        says: [
            "volume name, words 1008-1015 of the master block",
            "octal 023501 051104 023400, decimal 10049 21060 9984, then zeros: empty (leftovers behind it: ARD')",
            "1 to 16 of A-Z, 0-9 and hyphen, a shorter one ended by an apostrophe or a zero byte",
        ],
    },
    Case {
        words: &[(0, 1020, 0x4000)],
        rule: 1,
        place: (0, 1020),
        says: [
            "bit file pointer, words 1020-1021 of the master block",
            "octal 040000 000115, decimal 16384 77: indexed, page 77",
            "a page in 1..153, without flags",
        ],
    },
    Case {
        words: &[(0, 1018, 0), (0, 1019, 0)],
        rule: 2,
        place: (0, 1016),
        says: [
            "object pointer, words 1016-1017 of the master block",
            "octal 040000 000003, decimal 16384 3: indexed, page 3",
            "zero, as the user pointer is zero",
        ],
    },
    Case {
        words: &[(0, 1018, 0xc000)],
        rule: 2,
        place: (0, 1018),
        says: [
            "user pointer, words 1018-1019 of the master block",
            "octal 140000 000001, decimal 49152 1: indexed and subindexed at once, page 1",
            "indexed to a page in 1..153",
        ],
    },
    Case {
        words: &[(1, 1, 200)],
        rule: 3,
        place: (1, 0),
        says: [
            "slot 0 of the user index, words 0-1",
            "octal 000000 000310, decimal 0 200: page 200",
            "zero or a page in 1..153, without flags",
        ],
    },
    Case {
        words: &[(1, 17, 5)],
        rule: 3,
        place: (1, 16),
        says: [
            "slot 8 of the user index, words 16-17",
            "octal 000000 000005, decimal 0 5: page 5",
            "zero, as only slots 0..7 are used",
        ],
    },
    Case {
        words: &[(2, 2, 0x436b)],
        rule: 4,
        place: (2, 1),
        says: [
            "name of user 0 DOCk, words 1-8 of his entry",
            "octal 042117 041553 023400, decimal 17487 17259 9984, then zeros: DOCk",
            "1 to 16 of A-Z, 0-9 and hyphen, a shorter one ended by an apostrophe or a zero byte",
        ],
    },
    Case {
        words: &[(2, 1, 0x2720), (2, 2, 0x6f6c), (2, 3, 0x6400)],
        rule: 4,
        place: (2, 1),
        says: [
            "name of user 0, words 1-8 of his entry",
            "octal 023440 067554 062000, decimal 10016 28524 25600, then zeros: empty (leftovers behind it:  old)",
            "1 to 16 of A-Z, 0-9 and hyphen, a shorter one ended by an apostrophe or a zero byte",
        ],
    },
    Case {
        words: &[(2, 17, 101)],
        rule: 4,
        place: (2, 16),
        says: [
            "used pages of user 0 DOCK, words 16-17 of his entry",
            "octal 000000 000145, decimal 0 101: 101",
            "at most 100, the pages he is given",
        ],
    },
    Case {
        words: &[(2, 18, 5)],
        rule: 4,
        place: (2, 18),
        says: [
            "own index of user 0 DOCK, word 18 of his entry",
            "octal 000005, decimal 5",
            "0, his index by the place of his entry",
        ],
    },
    Case {
        words: &[(3, 3, 200)],
        rule: 5,
        place: (3, 2),
        says: [
            "slot 1 of object index 0, words 2-3",
            "octal 000000 000310, decimal 0 200: page 200",
            "zero or a page in 1..153, without flags",
        ],
    },
    Case {
        words: &[(4, 33, 0x5245), (4, 34, 0x4144)],
        rule: 6,
        place: (4, 33),
        says: [
            "name of DOCK/READS:DATA (user 0 file 1), words 1-8 of its entry",
            "octal 051105 040504 051447, decimal 21061 16708 21287, then zeros: READS",
            "a name or type of its own: file 0 of user 0 DOCK has both",
        ],
    },
    Case {
        words: &[(4, 33, 0x5245), (4, 34, 0x4144), (4, 35, 0x5300), (4, 36, 0x4f4c)],
        rule: 6,
        place: (4, 33),
        says: [
            "name of DOCK/READS:DATA (user 0 file 1), words 1-8 of its entry",
            "octal 051105 040504 051400 047514, decimal 21061 16708 21248 20300, then zeros: READS (leftovers behind it: OL)",
            "a name or type of its own: file 0 of user 0 DOCK has both",
        ],
    },
    Case {
        words: &[(4, 10, 0x6127)],
        rule: 6,
        place: (4, 9),
        says: [
            "type of DOCK/READS:DAa (user 0 file 0), words 9-10 of its entry",
            "octal 042101 060447, decimal 17473 24871: DAa",
            "0 to 4 of A-Z, 0-9 and hyphen, a shorter one ended by an apostrophe or a zero byte",
        ],
    },
    Case {
        words: &[(4, 16, 7)],
        rule: 6,
        place: (4, 16),
        says: [
            "user index of DOCK/READS:DATA (user 0 file 0), word 16 of its entry",
            "octal 000007, decimal 7",
            "0, the user by the place of the entry",
        ],
    },
    Case {
        words: &[(4, 49, 9)],
        rule: 6,
        place: (4, 49),
        says: [
            "own entry number of DOCK/LAMBS:DATA (user 0 file 1), word 17 of its entry",
            "octal 000011, decimal 9",
            "1, the entry number by its place (octal 000001)",
        ],
    },
    Case {
        words: &[(4, 29, 1)],
        rule: 7,
        place: (4, 28),
        says: [
            "bytes of DOCK/READS:DATA (user 0 file 0), words 28-29 of its entry",
            "octal 000000 000001, decimal 0 1: 1",
            "6144, 2,048 for each of 3 pages (octal 000000 014000)",
        ],
    },
    Case {
        words: &[(4, 63, 145)],
        rule: 7,
        place: (4, 62),
        says: [
            "pointer of DOCK/LAMBS:DATA (user 0 file 1), words 30-31 of its entry",
            "octal 000000 000221, decimal 0 145: page 145",
            "for 10 pages: indexed to a page in 1..153, or a first page in 1..144 without flags (contiguous)",
        ],
    },
    Case {
        words: &[(6, 3, 0)],
        rule: 7,
        place: (6, 2),
        says: [
            "slot 1 of index block 0 of DOCK/READS:DATA (user 0 file 0), words 2-3",
            "octal 000000 000000, decimal 0 0: none",
            "a page in 1..153, without flags",
        ],
    },
    Case {
        words: &[(6, 9, 100)],
        rule: 7,
        place: (6, 8),
        says: [
            "slot 4 of index block 0 of DOCK/READS:DATA (user 0 file 0), words 8-9",
            "octal 000000 000144, decimal 0 100: page 100",
            "zero, past the file's pages",
        ],
    },
    Case {
        words: &[(77, 6, 16)],
        rule: 9,
        place: (77, 6),
        says: [
            "bits of pages 96 to 111, word 6 of the bit file",
            "octal 000020, decimal 16: reserved 100",
            "0: bit 4 clear, as nobody holds page 100",
        ],
    },
    Case {
        words: &[(77, 0, 0o737)],
        rule: 9,
        place: (77, 0),
        says: [
            "bits of pages 0 to 15, word 0 of the bit file",
            "octal 000737, decimal 479: reserved 0 to 4, 6 to 8",
            "511: bit 5 set, as page 5 is data page 0 of DOCK/READS:DATA (user 0 file 0) (octal 000777)",
        ],
    },
    Case {
        words: &[(2, 17, 13)],
        rule: 10,
        place: (2, 16),
        says: [
            "used pages of user 0 DOCK, words 16-17 of his entry",
            "octal 000000 000015, decimal 0 13: 13",
            "14, the data, index and subindex pages of his files (octal 000000 000016)",
        ],
    },
    Case {
        words: &[(0, 1023, 49)],
        rule: 10,
        place: (0, 1022),
        says: [
            "unreserved pages, words 1022-1023 of the master block",
            "octal 000000 000061, decimal 0 49: 49",
            "48, 154 pages less 100 given less 6 of the system (octal 000000 000060)",
        ],
    },
    Case {
        words: &[GIVEN_TOO_MUCH],
        rule: 10,
        place: (0, 1022),
        says: [
            "unreserved pages, words 1022-1023 of the master block",
            "octal 000000 000060, decimal 0 48: 48",
            "154 pages less 4294901860 given less 6 of the system, which no number is: more is given than there is",
        ],
    },
];

/// Words of an image: page, word and value.
pub type Words = &'static [(usize, usize, u16)];

/// The image with these words, beside it.
pub fn with(folder: &Folder, image: &Path, words: &[(usize, usize, u16)]) -> PathBuf {
    let mut bytes = std::fs::read(image).unwrap();
    for (page, word, value) in words {
        let at = 2 * (page * 1024 + word);
        bytes[at..at + 2].copy_from_slice(&value.to_be_bytes());
    }
    folder.put("broken.img", &bytes)
}

#[test]
fn check_says_where_each_rule_is_broken() {
    let (folder, image) = sample();
    for Case { words, rule, place, says } in CASES {
        let image = with(&folder, &image, words);
        let (page, word) = place;
        let [what, there, expected] = says;
        let sentence = nord::answers::rule(rule);
        let wanted = format!(
            "nord: refused (3): the image is unsound: rule {rule} is broken at page {page}, word {word}\n  \
             rule {rule:<5}{sentence}\n  place     {what}\n  there     {there}\n  expected  {expected}\n  \
             look at   nord page {} {page} {word}\n",
            image.display()
        );
        let said = fails(&image, "check IMAGE", 3);
        let salvage = said.strip_prefix(&wanted).unwrap_or_else(|| panic!("{said}"));
        let mends = (matches!(rule, 9 | 10) && words[0] != GIVEN_TOO_MUCH) || (rule, place) == (4, (2, 16));
        let can = if mends {
            "can mend this by changing 1 word: nord salvage "
        } else {
            "cannot mend this: "
        };
        assert!(salvage.starts_with(&format!("  salvage   {can}")), "{said}");
    }
}

#[test]
fn the_ten_sentences_are_document_01s() {
    let sentences = (1..=10).map(nord::answers::rule).collect::<Vec<_>>();
    assert_eq!(
        sentences[3],
        "Used users: own index right, name legal, no two names equal, used <= given."
    );
    assert!(sentences.iter().all(|sentence| sentence.ends_with('.') && !sentence.contains("  ")));
}

#[test]
fn other_commands_say_the_rule_and_its_place() {
    let (folder, image) = sample();
    for Case { words, rule, place, .. } in CASES {
        let image = with(&folder, &image, words);
        for line in [
            "list IMAGE",
            "map IMAGE",
            "user add IMAGE FLOCK",
            "read IMAGE @0/@0",
            "file grow IMAGE DOCK/READS:DATA",
            "file grow IMAGE @0/@0 2",
            "who IMAGE 0",
        ] {
            let (page, word) = place;
            let look = match line.split(' ').next() {
                Some("list" | "map" | "read" | "who") => {
                    format!("  look      nord {} --unsound\n", line.replace("IMAGE", image.to_str().unwrap()))
                }
                _ => String::new(),
            };
            let wanted = format!(
                "nord: refused (3): the image is unsound: rule {rule} is broken at page {page}, word {word}\n  \
                 rule {rule}: {} nord check tells more\n{look}",
                nord::answers::rule(rule)
            );
            assert_eq!(fails(&image, line, 3), wanted, "{line}");
        }
    }
}

#[test]
fn json_has_all_numbers() {
    let (folder, image) = sample();
    let image = with(&folder, &image, &[(2, 17, 101)]);
    let free = json!({ "holder": "free", "kind": 0, "user": 0, "file": 0, "position": 0 });
    let sentence = nord::answers::rule(4);
    let refusal = "the image is unsound: rule 4 is broken at page 2, word 16";
    let check = run(&image, "check IMAGE --json");
    let wanted = json!({
        "number": 3,
        "rule": 4,
        "sentence": sentence,
        "error": refusal,
        "page": 2,
        "word": 16,
        "what": "used pages of user 0 DOCK, words 16-17 of his entry",
        "there": { "words": [0, 101], "octal": ["000000", "000145"], "number": 101, "says": "101" },
        "expected": { "words": "at most 100, the pages he is given", "from": 0, "to": 100 },
        "first": free,
        "second": free,
        "salvage": { "mends": true, "changed": 1, "orphans": 0 },
    });
    assert_eq!((check.status, check.json()), (3, wanted));
    let list = run(&image, "list IMAGE --json");
    let wanted = json!({
        "number": 3, "rule": 4, "sentence": sentence, "error": refusal, "page": 2, "word": 16, "first": free, "second": free,
    });
    assert_eq!((list.status, list.json()), (3, wanted));
}

#[test]
fn rule_8_names_both_holders() {
    let (folder, image) = sample();
    done(&image, "user add IMAGE FLOCK");
    done(&image, "user give IMAGE FLOCK 5");
    done(&image, "file create IMAGE FLOCK/LOG:TEXT");
    done(&image, "file grow IMAGE FLOCK/LOG:TEXT 2");
    let index = done(&image, "address IMAGE FLOCK/LOG:TEXT 0")["page ".len()..]
        .trim()
        .parse::<usize>()
        .unwrap()
        + 1;
    let image = with(&folder, &image, &[(index, 1, 8)]);
    let said = fails(&image, "check IMAGE", 3);
    let wanted = "nord: refused (3): the image is unsound: rule 8 is broken at page 8, word 0\n  rule 8    No page has two holders.\n  \
                  place     page 8 as a whole\n  first     data page 2 of DOCK/READS:DATA (user 0 file 0)\n  \
                  second    data page 0 of FLOCK/LOG:TEXT (user 1 file 0)\n  expected  one holder, or none\n";
    assert!(said.starts_with(wanted), "{said}");
    let json = run(&image, "check IMAGE --json").json();
    let holder = |user: u32, position: u32, names: [&str; 3]| {
        json!({
            "holder": "data page", "kind": 10, "user": user, "file": 0, "position": position,
            "user_name": names[0], "file_name": names[1], "type_name": names[2],
        })
    };
    assert_eq!(json["first"], holder(0, 2, ["DOCK", "READS", "DATA"]));
    assert_eq!(json["second"], holder(1, 0, ["FLOCK", "LOG", "TEXT"]));
    assert_eq!((&json["page"], &json["word"]), (&json!(8), &json!(0)));
}

#[test]
fn a_format_still_ends_all_that() {
    let (folder, image) = sample();
    let image = with(&folder, &image, &[(2, 17, 101)]);
    done(&image, "format IMAGE YARD");
    assert_eq!(done(&image, "check IMAGE"), "sound: 2 of 154 pages are held\n");
}
