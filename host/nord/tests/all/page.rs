//! `nord page`: the words of a page, on sound images and on others.

use crate::broken::with;
use crate::common::{disk, done, fails, noise, run, sample, Folder};
use serde_json::{json, Value};

/// A page's lines.
fn lines(image: &std::path::Path, line: &str) -> Vec<String> {
    done(image, line).lines().map(str::to_string).collect()
}

/// Whether the lines are there, in this order and one after the other.
fn has(lines: &[String], wanted: &[&str]) {
    let found = lines.windows(wanted.len()).any(|part| part.iter().eq(wanted));
    assert!(found, "{wanted:#?} in {lines:#?}");
}

#[test]
fn the_master_block() {
    let (_folder, image) = sample();
    let wanted = "page 0 of 154
  held as   master
  its bit   set: the page is reserved
  word (octal)   octal  decimal      what it is
     0 (0)      000000        0  ..
     *  the same to word 1007
  1008 (1760)   054501    22849  YA  volume name: YARD
  1009 (1761)   051104    21060  RD
  1010 (1762)   023400     9984  '.
  1011 (1763)   000000        0  ..
     *  the same to word 1015
  1016 (1770)   040000    16384  @.  object pointer: indexed, page 3
  1017 (1771)   000003        3  ..
  1018 (1772)   040000    16384  @.  user pointer: indexed, page 1
  1019 (1773)   000001        1  ..
  1020 (1774)   000000        0  ..  bit file pointer: page 77
  1021 (1775)   000115       77  .M
  1022 (1776)   000000        0  ..  unreserved pages: 48
  1023 (1777)   000060       48  .0
";
    assert_eq!(done(&image, "page IMAGE 0"), wanted);
}

#[test]
fn the_bit_file_and_the_object_index() {
    let (_folder, image) = sample();
    has(
        &lines(&image, "page IMAGE 77"),
        &[
            "     0 (0)      000777      511  ..  pages 0 to 15: reserved 0 to 8",
            "     1 (1)      000000        0  ..  pages 16 to 31: none reserved",
            "     *  the same to word 3",
            "     4 (4)      020000     8192   .  pages 64 to 79: reserved 77",
        ],
    );
    has(
        &lines(&image, "page IMAGE 3"),
        &[
            "     0 (0)      000000        0  ..  slot 0, object page 0: page 4",
            "     1 (1)      000004        4  ..",
        ],
    );
}

#[test]
fn the_user_file() {
    let (_folder, image) = sample();
    has(
        &lines(&image, "page IMAGE 1"),
        &[
            "  held as   user index",
            "  its bit   set: the page is reserved",
            "  word (octal)   octal  decimal      what it is",
            "     0 (0)      000000        0  ..  slot 0, user page 0: page 2",
            "     1 (1)      000002        2  ..",
            "     2 (2)      000000        0  ..  slot 1, user page 1: none",
            "     *  the same to word 1023",
        ],
    );
    has(
        &lines(&image, "page IMAGE 2"),
        &[
            "     0 (0)      100000    32768  ..  user 0 DOCK: used",
            "     1 (1)      042117    17487  DO  name: DOCK",
            "     2 (2)      041513    17227  CK",
            "     3 (3)      023400     9984  '.",
            "     4 (4)      000000        0  ..",
            "     *  the same to word 13",
            "    14 (16)     000000        0  ..  given pages: 100",
            "    15 (17)     000144      100  .d",
            "    16 (20)     000000        0  ..  used pages: 14",
            "    17 (21)     000016       14  ..",
            "    18 (22)     000000        0  ..  own index: 0",
        ],
    );
}

#[test]
fn the_pages_of_a_file() {
    let (_folder, image) = sample();
    has(
        &lines(&image, "page IMAGE 4"),
        &[
            "    26 (32)     000000        0  ..  pages: 3",
            "    27 (33)     000003        3  ..",
            "    28 (34)     000000        0  ..  bytes: 6144",
            "    29 (35)     014000     6144  ..",
            "    30 (36)     040000    16384  @.  pointer: indexed, page 6",
            "    31 (37)     000006        6  ..",
            "    32 (40)     100000    32768  ..  DOCK/LAMBS:DATA (user 0 file 1): used",
        ],
    );
    let index = lines(&image, "page IMAGE 6");
    assert_eq!(index[1], "  held as   index block 0 of DOCK/READS:DATA (user 0 file 0)");
    has(&index, &["     4 (4)      000000        0  ..  slot 2, data page 2: page 8"]);
    let data = lines(&image, "page IMAGE 7");
    assert_eq!(data[1], "  held as   data page 1 of DOCK/READS:DATA (user 0 file 0)");
    assert_eq!(data[4], "     0 (0)      050141    20577  Pa");
    let free = lines(&image, "page IMAGE 100");
    assert_eq!(
        free[1..3],
        [
            "  held as   nothing: the page is free",
            "  its bit   clear: the page is not reserved"
        ]
    );
}

#[test]
fn a_subindexed_file_and_object_file() {
    let (folder, image) = disk(800, 600);
    let input = folder.put("in.bin", &noise(1, 513 * 2048));
    done(&image, &format!("write IMAGE DOCK/LONG:DATA {}", input.display()));
    for user in 1..65 {
        done(&image, &format!("user add IMAGE U{user}"));
    }
    let holders = run(&image, "map IMAGE --json").json()["holders"].clone();
    let page = |kind: u32, position: u32| {
        let such = |holder: &Value| (&holder["kind"], &holder["position"]) == (&json!(kind), &json!(position));
        holders.as_array().unwrap().iter().position(such).unwrap()
    };
    for (kind, position, held, word) in [
        (
            8,
            0,
            "subindex block of DOCK/LONG:DATA (user 0 file 0)",
            "slot 1, index block 1: page",
        ),
        (
            9,
            1,
            "index block 1 of DOCK/LONG:DATA (user 0 file 0)",
            "slot 0, data page 512: page",
        ),
        (5, 0, "object subindex", "slot 0, object index 0: page"),
        (4, 2, "user page 2", "user 64 U64: used"),
    ] {
        let text = done(&image, &format!("page IMAGE {}", page(kind, position)));
        assert!(text.contains(&format!("  held as   {held}\n")) && text.contains(word), "{text}");
    }
}

#[test]
fn one_word_in_more_detail() {
    let (_folder, image) = sample();
    let wanted = "page 4 of 154, word 31 (octal 37)
  held as   object page 0
  its bit   set: the page is reserved
  octal     000006
  decimal   6
  bytes     0 6, characters ..
  bits      0000000000000110, set 2 1
  it is     pointer of DOCK/READS:DATA (user 0 file 0), words 30-31 of its entry
  together  040000 000006
  it says   indexed, page 6
  leads to  page 6, held as index block 0 of DOCK/READS:DATA (user 0 file 0)
";
    assert_eq!(done(&image, "page IMAGE 4 31"), wanted);
    has(
        &lines(&image, "page IMAGE 77 0"),
        &[
            "  it is     bits of pages 0 to 15, word 0 of the bit file",
            "  it says   reserved 0 to 8",
            "  bit 0     1  page 0, master",
            "  bit 1     1  page 1, user index",
        ],
    );
    has(
        &lines(&image, "page IMAGE 5 0"),
        &["  it is     word 0 of data page 0 of DOCK/READS:DATA (user 0 file 0)"],
    );
    has(
        &lines(&image, "page IMAGE 2 40"),
        &["  it is     word 8 of his entry, user 1: not used"],
    );
}

#[test]
fn beside_a_name_its_leftovers_are_shown() {
    let (folder, image) = sample();
    let image = with(&folder, &image, &[(2, 3, 0x2753), (2, 4, 0x204f), (2, 5, 0x4c44), (4, 41, 0x2741)]);
    has(
        &lines(&image, "page IMAGE 2"),
        &[
            "     0 (0)      100000    32768  ..  user 0 DOCK: used",
            "     1 (1)      042117    17487  DO  name: DOCK (leftovers behind it: S OLD)",
            "     2 (2)      041513    17227  CK",
            "     3 (3)      023523    10067  'S",
            "     4 (4)      020117     8271   O",
            "     5 (5)      046104    19524  LD",
            "     6 (6)      000000        0  ..",
            "     *  the same to word 13",
        ],
    );
    has(
        &lines(&image, "page IMAGE 4"),
        &[
            "    41 (51)     023501    10049  'A  type: empty (leftovers behind it: ATA)",
            "    42 (52)     052101    21569  TA",
        ],
    );
    has(
        &lines(&image, "page IMAGE 2 4"),
        &[
            "  it is     name of user 0 DOCK, words 1-8 of his entry",
            "  together  042117 041513 023523 020117 046104 000000 000000 000000",
            "  it says   DOCK",
            "  leftovers S OLD (behind its end, and ignored)",
        ],
    );
    let word = |number: u32| run(&image, &format!("page IMAGE 2 {number} --json")).json()["words"][0]["is"].clone();
    let name = "name of user 0 DOCK, words 1-8 of his entry";
    assert_eq!(
        word(1),
        json!([{ "what": name, "says": "DOCK", "leftovers": "S OLD", "first": 1, "words": 8 }])
    );
    assert_eq!(word(14)[0]["leftovers"], Value::Null);
}

#[test]
fn the_broken_word_is_marked() {
    let (folder, image) = sample();
    let image = with(&folder, &image, &[(2, 17, 101)]);
    let place = "  broken    the image is unsound: rule 4 is broken at page 2, word 16";
    let here = lines(&image, "page IMAGE 2");
    assert_eq!(here[3], place);
    has(
        &here,
        &[
            ">   16 (20)     000000        0  ..  used pages: 101",
            "> rule 4 is broken here: used pages of user 0 DOCK, words 16-17 of his entry; expected: at most 100, the pages he is given",
            "    17 (21)     000145      101  .e",
        ],
    );
    assert_eq!(here.iter().filter(|line| line.starts_with('>')).count(), 2);
    let elsewhere = lines(&image, "page IMAGE 0");
    assert!(
        elsewhere[3] == place && !elsewhere.iter().any(|line| line.starts_with('>')),
        "{elsewhere:#?}"
    );
    has(
        &lines(&image, "page IMAGE 2 16"),
        &[
            "  broken    here: used pages of user 0 DOCK, words 16-17 of his entry",
            "  expected  at most 100, the pages he is given",
        ],
    );
    // A word among zeros that is broken is not folded away.
    let (folder, image) = sample();
    let image = with(&folder, &image, &[(6, 3, 0)]);
    has(
        &lines(&image, "page IMAGE 6"),
        &[
            ">    2 (2)      000000        0  ..  slot 1, data page 1: none",
            "> rule 7 is broken here: slot 1 of index block 0 of DOCK/READS:DATA (user 0 file 0), words 2-3; expected: a page in 1..153, without flags",
        ],
    );
}

#[test]
fn of_a_page_that_two_hold_both_are_told() {
    let (folder, image) = sample();
    let image = with(&folder, &image, &[(6, 3, 2), (6, 5, 2), (77, 0, 0)]);
    let page = lines(&image, "page IMAGE 2");
    has(
        &page,
        &[
            "  held as   user page 0",
            "  held as   data page 1 of DOCK/READS:DATA (user 0 file 0)",
            "  held as   more than these two",
            "  its bit   clear: the page is not reserved",
            "  broken    the image is unsound: rule 8 is broken at page 2, word 0",
        ],
    );
    has(
        &page,
        &[
            ">    0 (0)      100000    32768  ..  user 0 DOCK: used",
            "> rule 8 is broken here: page 2 as a whole; expected: one holder, or none",
        ],
    );
    let json = run(&image, "page IMAGE 2 --json").json();
    assert_eq!(json["holders"].as_array().map(Vec::len), Some(2));
    assert_eq!(
        (&json["more_holders"], &json["sound"], &json["reserved"]),
        (&json!(true), &json!(false), &json!(false))
    );
    assert_eq!(
        (&json["broken"]["rule"], &json["broken"]["page"], &json["broken"]["word"]),
        (&json!(8), &json!(2), &json!(0))
    );
    assert_eq!(json["words"][0]["broken"], json!(true));
    // Two meanings of one word: page 6 is an index block and an object page.
    let image = with(&folder, &image, &[(3, 3, 6)]);
    has(
        &lines(&image, "page IMAGE 6"),
        &["     0 (0)      000000        0  ..  user 0 file 32: not used | slot 0, data page 0: page 5"],
    );
}

#[test]
fn json_has_every_word() {
    let (_folder, image) = sample();
    let json = run(&image, "page IMAGE 2 --json").json();
    assert_eq!(
        (&json["number"], &json["page"], &json["pages"]),
        (&json!(0), &json!(2), &json!(154))
    );
    assert_eq!(
        (&json["sound"], &json["broken"], &json["reserved"]),
        (&json!(true), &json!(null), &json!(true))
    );
    assert_eq!(
        json["holders"],
        json!([{ "holder": "user page", "kind": 4, "user": 0, "file": 0, "position": 0 }])
    );
    let words = json["words"].as_array().unwrap();
    let given = json!([{ "what": "given pages of user 0 DOCK, words 14-15 of his entry", "says": "100", "first": 14, "words": 2 }]);
    assert_eq!(words.len(), 1024);
    assert_eq!(
        words[15],
        json!({ "word": 15, "value": 100, "octal": "000144", "is": given, "broken": false })
    );
    let one = run(&image, "page IMAGE 2 15 --json").json();
    let word = json!({
        "word": 15, "value": 100, "octal": "000144", "is": given, "broken": false, "characters": ".d", "bits": [2, 5, 6],
    });
    assert_eq!(one["words"], json!([word]));
}

#[test]
fn wrong_pages_words_and_lengths() {
    let (folder, image) = sample();
    let reason = "nord: refused (2): an argument is wrong (a page's number is below the number of pages, a word's at most 1,023)";
    assert_eq!(fails(&image, "page IMAGE 154", 2), format!("{reason}: page 154 of 154\n"));
    assert_eq!(
        fails(&image, "page IMAGE 99999999999 5", 2),
        format!("{reason}: page 99999999999 of 154\n")
    );
    assert_eq!(fails(&image, "page IMAGE 3 1024", 2), format!("{reason}: word 1024\n"));
    done(&image, "page IMAGE 153 1023");
    let unsound = with(&folder, &image, &[(0, 1008, 0)]);
    fails(&unsound, "page IMAGE 154", 2);
    fails(&unsound, "page IMAGE 0 1024", 2);
    for bytes in [0, 7 * 2048, 8 * 2048 + 1, 9 * 2048 - 2] {
        let short = folder.put("short.img", &vec![0; bytes]);
        assert!(fails(&short, "page IMAGE 0", 1).starts_with("nord: refused (1): the length is no whole number of pages"));
    }
    for line in [
        "page IMAGE",
        "page IMAGE two",
        "page IMAGE -1",
        "page IMAGE 2 x",
        "page IMAGE 2 3 4",
    ] {
        assert_eq!(run(&image, line).status, 64, "{line}");
    }
}

/// Pointers that lead out of the image, to themselves, to page 0 and with both flags; and pages of noise.
#[test]
fn hostile_words_are_shown_too() {
    let (folder, image) = sample();
    let hostile: [&[(usize, usize, u16)]; 7] = [
        &[(0, 1018, 0xffff), (0, 1019, 0xffff)],
        &[(0, 1016, 0x8000), (0, 1017, 0)],
        &[(0, 1020, 0xffff), (0, 1021, 0xffff)],
        &[(0, 1016, 0x8000), (0, 1017, 3), (3, 1, 3), (3, 3, 3)],
        &[(4, 30, 0x8000), (4, 31, 6), (6, 1, 6), (4, 26, 0xffff)],
        &[(4, 30, 0), (4, 31, 1), (4, 26, 0xffff), (4, 27, 0xffff)],
        &[(1, 1, 1), (1, 3, 1), (0, 1017, 1)],
    ];
    for words in hostile {
        let image = with(&folder, &image, words);
        for page in [0, 1, 2, 3, 4, 6, 77, 153] {
            assert!(done(&image, &format!("page IMAGE {page}")).contains("rule "), "{words:?}");
            done(&image, &format!("page IMAGE {page} 1023"));
        }
    }
    has(
        &lines(&with(&folder, &image, hostile[2]), "page IMAGE 0"),
        &["  its bit   not to be found: the bit file pointer is wrong"],
    );
    let noisy = Folder::new();
    for seed in 0..4 {
        let image = noisy.put("noise.img", &noise(seed, 16 * 2048));
        (0..16).for_each(|page| assert!(done(&image, &format!("page IMAGE {page}")).contains("> ") || page > 0));
    }
}
