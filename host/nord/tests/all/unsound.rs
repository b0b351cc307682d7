//! `--unsound`: what can be read of an image that check refuses, each doubtful part marked, and nothing written.

use crate::broken::{with, Words};
use crate::cases::{cases, Case};
use crate::common::{disk, done, fails, noise, run, sample, Folder, Run};
use crate::hostile::shared_tree;
use serde_json::{json, Value};
use std::path::{Path, PathBuf};

/// A run that is done; gives its answer and what it says beside it.
fn seen(image: &Path, line: &str) -> (String, String) {
    let before = std::fs::read(image).unwrap();
    let run = run(image, line);
    assert_eq!(run.status, 0, "{line}: {}", run.err);
    assert!(std::fs::read(image).unwrap() == before, "{line} has changed the image");
    (run.text().to_string(), run.err)
}

/// The same, where nothing is said beside the answer.
fn shows(image: &Path, line: &str) -> String {
    let (text, err) = seen(image, line);
    assert_eq!(err, "", "{line}");
    text
}

fn json(image: &Path, line: &str) -> Value {
    serde_json::from_str(&seen(image, line).0).unwrap()
}

const COMMANDS: [&str; 5] = [
    "list IMAGE",
    "map IMAGE",
    "who IMAGE 5",
    "read IMAGE DOCK/READS:DATA",
    "page IMAGE 2",
];

#[test]
fn on_a_sound_image_the_answers_are_the_same() {
    let (_folder, image) = sample();
    for line in COMMANDS {
        let (plain, flagged) = (run(&image, line), run(&image, &format!("{line} --unsound")));
        assert_eq!((plain.status, flagged.status, flagged.err.as_str()), (0, 0, ""), "{line}");
        assert!(plain.out == flagged.out, "{line}");
    }
    for line in [
        "list IMAGE --json",
        "map IMAGE --json",
        "who IMAGE 5 --json",
        "page IMAGE 2 5 --json",
    ] {
        assert_eq!(run(&image, line).json(), json(&image, &format!("{line} --unsound")), "{line}");
    }
    fails(&image, "who IMAGE 154 --unsound", 2);
    fails(&image, "read IMAGE DOCK/NONE --unsound", 4);
    fails(&image, "read IMAGE DOCK/reads --unsound", 2);
}

#[test]
fn one_wrong_bit() {
    let (folder, image) = sample();
    let reads = run(&image, "read IMAGE DOCK/READS:DATA").out;
    let image = with(&folder, &image, &[(77, 6, 16)]);
    let head = "the image is unsound: rule 9 is broken at page 77, word 6\n";
    let wanted = format!(
        "{head}? VOLUME YARD PAGES 154 RESERVED 21 UNRESERVED 48: bit of page 100 set, and nobody holds it\n\
         USER 0 DOCK GIVEN 100 USED 14\nFILE 0 READS:DATA PAGES 3 INDEXED\nFILE 1 LAMBS:DATA PAGES 10 CONTIGUOUS\n"
    );
    assert_eq!(shows(&image, "list IMAGE --unsound"), wanted);
    let map = shows(&image, "map IMAGE --unsound --width 80");
    assert!(
        map.starts_with(&format!("{head}YARD: 154 pages, 133 free, 21 reserved, 48 unreserved\n")),
        "{map}"
    );
    assert!(
        map.contains("\n 96  ....?...") && map.contains(" ?  set, no holder        1\n"),
        "{map}"
    );
    let who = format!("{head}free: nobody holds it\n? its bit is set, and nobody holds the page\n");
    assert_eq!(shows(&image, "who IMAGE 100 --unsound"), who);
    let who = format!("{head}data page 0 of DOCK/READS:DATA (user 0 file 0)\nits bit is set: the page is reserved\n");
    assert_eq!(shows(&image, "who IMAGE 5 --unsound"), who);
    let read = run(&image, "read IMAGE DOCK/READS:DATA --unsound");
    assert!(read.status == 0 && read.out == reads);
    assert_eq!(
        read.err,
        format!("nord: {head}nothing of DOCK/READS:DATA (user 0 file 0) is doubtful\n")
    );
    assert_eq!(shows(&image, "page IMAGE 77 6 --unsound"), shows(&image, "page IMAGE 77 6"));
}

#[test]
fn a_held_page_whose_bit_is_clear() {
    let (folder, image) = sample();
    let image = with(&folder, &image, &[(77, 0, 0o733), (77, 9, 0xfffe)]);
    let list = shows(&image, "list IMAGE --unsound");
    assert!(
        list.contains("? VOLUME YARD PAGES 154 RESERVED 17 UNRESERVED 48: bit of page 2 clear\n"),
        "{list}"
    );
    assert!(
        list.contains("? FILE 0 READS:DATA PAGES 3 INDEXED: bit of page 5 clear\n"),
        "{list}"
    );
    assert!(
        list.contains("? FILE 1 LAMBS:DATA PAGES 10 CONTIGUOUS: bit of page 144 clear\n"),
        "{list}"
    );
    let map = shows(&image, "map IMAGE --unsound --width 80");
    assert!(
        map.contains("\n  0  MU!Oo!Ddd...") && map.contains("\n128  ................!ddddddddd"),
        "{map}"
    );
    assert!(map.contains(" !  held, bit clear       3\n"), "{map}");
    let who = shows(&image, "who IMAGE 5 --unsound");
    assert!(who.ends_with("\n? its bit is clear, and the page is held\n"), "{who}");
    let err = seen(&image, &format!("read IMAGE @0/@1 {} --unsound", folder.path("out").display())).1;
    assert!(err.ends_with("\n? position 0: bit of page 144 clear\n"), "{err}");
}

/// A disk with a file of 514 pages, whose pointer 513 is laid over pointer 1 too; gives the two pages.
fn pointer_513_over_pointer_1() -> (Folder, PathBuf, u32, u32) {
    let (folder, image) = disk(700, 600);
    done(&image, "file create IMAGE DOCK/NOTES:TEXT --contiguous 4");
    let long = folder.put("long", &noise(7, 514 * 2048));
    done(&image, &format!("write IMAGE DOCK/LONG:DATA {}", long.display()));
    let page = |position: u32| {
        done(&image, &format!("address IMAGE DOCK/LONG:DATA {position}"))[5..]
            .trim()
            .parse()
            .unwrap()
    };
    let (first, last): (u32, u32) = (page(1), page(513));
    let holder: Value = run(&image, &format!("page IMAGE {} --json", page(0) + 1)).json();
    assert_eq!(holder["holders"][0]["holder"], "index block");
    let image = with(&folder, &image, &[(page(0) as usize + 1, 3, last as u16)]);
    (folder, image, first, last)
}

#[test]
fn pointer_513_over_pointer_1_is_a_page_held_twice() {
    let (folder, image, lost, twice) = pointer_513_over_pointer_1();
    let head = format!("the image is unsound: rule 8 is broken at page {twice}, word 0\n");
    let list = shows(&image, "list IMAGE --unsound");
    let lines: Vec<&str> = list.lines().collect();
    assert_eq!(lines[0], head.trim_end());
    assert!(
        lines[1].ends_with(&format!(": bit of page {lost} set, and nobody holds it")),
        "{list}"
    );
    assert_eq!(
        lines[3..],
        [
            "FILE 0 NOTES:TEXT PAGES 4 CONTIGUOUS".to_string(),
            format!("? FILE 1 LONG:DATA PAGES 514 SUBINDEXED: page {twice} is held by its data page 513 too, and 1 more")
        ]
    );
    let who = shows(&image, &format!("who IMAGE {twice} --unsound"));
    let holder = |n: u32| format!("? data page {n} of DOCK/LONG:DATA (user 0 file 1): held twice\n");
    assert_eq!(
        who,
        format!("{head}{}{}its bit is set: the page is reserved\n", holder(1), holder(513))
    );
    let out = folder.path("out");
    let (said, err) = seen(&image, &format!("read IMAGE DOCK/LONG:DATA {} --unsound", out.display()));
    assert_eq!(said, format!("514 pages of DOCK/LONG:DATA in {}\n", out.display()));
    let told = |one: u32, other: u32| format!("? position {one}: page {twice} is held by its data page {other} too\n");
    assert_eq!(err, format!("nord: {head}{}{}", told(1, 513), told(513, 1)));
    let (bytes, long) = (std::fs::read(out).unwrap(), noise(7, 514 * 2048));
    assert!(bytes[..2048] == long[..2048] && bytes[4096..] == long[4096..] && bytes[2048..4096] == long[513 * 2048..]);
    let map = shows(&image, "map IMAGE --unsound");
    assert!(map.contains(" 2  held twice ") && map.contains(" ?  set, no holder "), "{map}");
}

#[test]
fn a_pointer_outside_and_one_that_is_missing() {
    let (folder, image) = sample();
    let reads = run(&image, "read IMAGE DOCK/READS:DATA").out;
    let image = with(&folder, &image, &[(6, 2, 1), (6, 3, 4464), (6, 5, 0)]);
    let list = shows(&image, "list IMAGE --unsound");
    let wanted = "? FILE 0 READS:DATA PAGES 3 INDEXED: position 1: pointer 70000 is no page of 154, and 1 more\n";
    assert!(
        list.contains(wanted) && list.contains("\n? USER 0 DOCK GIVEN 100 USED 14: used 14, his files hold 12\n"),
        "{list}"
    );
    let read = run(&image, "read IMAGE @0/@0 --unsound");
    let said = "nord: the image is unsound: rule 7 is broken at page 6, word 2\n\
                ? position 1: pointer 70000 is no page of 154, written as zeros\n? position 2: no pointer, written as zeros\n";
    assert_eq!((read.status, read.err.as_str()), (0, said));
    assert!(read.out[..2048] == reads[..2048] && read.out[2048..] == [0; 4096]);
}

#[test]
fn wrong_names_are_shown_and_found_as_they_are() {
    let (folder, image) = sample();
    let reads = run(&image, "read IMAGE DOCK/READS:DATA").out;
    let image = with(&folder, &image, &[(2, 2, 0x436b), (4, 1, 0x5207), (4, 10, 0x2a41)]);
    let list = shows(&image, "list IMAGE --unsound");
    assert!(list.contains("? USER 0 DOCk GIVEN 100 USED 14: name is not legal\n"), "{list}");
    assert!(
        list.contains("? FILE 0 R?ADS:DA*A PAGES 3 INDEXED: name is not legal; type is not legal\n"),
        "{list}"
    );
    let read = run(&image, "read IMAGE DOCk/R?ADS:DA*A --unsound");
    assert!(read.status == 0 && read.out == reads);
    assert!(
        read.err.contains("? DOCk/R?ADS:DA*A (user 0 file 0): name is not legal\n"),
        "{}",
        read.err
    );
}

#[test]
fn files_whose_owner_is_gone() {
    let (folder, image) = sample();
    let reads = run(&image, "read IMAGE DOCK/READS:DATA").out;
    let image = with(&folder, &image, &[(2, 0, 0)]);
    let list = shows(&image, "list IMAGE --unsound");
    let wanted = "? USER 0: not used, and has files\n? FILE 0 READS:DATA PAGES 3 INDEXED: owner 0 is not used\n";
    assert!(list.contains(wanted), "{list}");
    assert!(run(&image, "read IMAGE @0/@0 --unsound").out == reads);
    fails(&image, "read IMAGE DOCK/READS:DATA --unsound", 4);
    let who = shows(&image, "who IMAGE 5 --unsound");
    assert!(who.contains("? data page 0 of user 0 file 0: owner 0 is not used\n"), "{who}");
    let user = json(&image, "list IMAGE --unsound --json")["users"][0].clone();
    assert_eq!(
        (&user["name"], &user["given"], &user["used"]),
        (&Value::Null, &Value::Null, &Value::Null)
    );
}

#[test]
fn what_cannot_be_read_is_refused() {
    let (folder, image) = sample();
    let reads = "DOCK/READS:DATA (user 0 file 0) cannot be read";
    let shapeless: [(Words, &str); 3] = [
        (&[(4, 30, 0), (4, 31, 0)], "page count 3 and no pointer"),
        (&[(4, 30, 0xc000)], "its pointer is indexed and subindexed at once"),
        (&[(4, 27, 154)], "page count 154, and the image has 154 pages"),
    ];
    for (words, why) in shapeless {
        let image = with(&folder, &image, words);
        let said = fails(&image, "read IMAGE DOCK/READS:DATA --unsound", 3);
        assert!(said.starts_with(&format!("nord: refused (3): {reads}: {why}\n")), "{said}");
    }
    let image = with(&folder, &image, &[(77, 6, 16)]);
    for (line, status) in [
        ("read IMAGE DOCK/NONE --unsound", 4),
        ("read IMAGE NONE/READS:DATA --unsound", 4),
        ("read IMAGE @0/@7 --unsound", 4),
        ("read IMAGE @0/@99999999999 --unsound", 4),
        ("read IMAGE @300/READS --unsound", 4),
        ("read IMAGE @0/@0 --unsound --json", 64),
        ("who IMAGE 154 --unsound", 2),
        ("page IMAGE 154 --unsound", 2),
    ] {
        assert!(!fails(&image, line, status).is_empty());
    }
}

#[test]
fn shapes_that_do_not_fit_the_page_count() {
    let (folder, image) = disk(700, 650);
    done(&image, "file create IMAGE DOCK/READS:DATA");
    done(&image, "file grow IMAGE DOCK/READS:DATA 3");
    let image = with(&folder, &image, &[(4, 27, 600)]);
    let list = shows(&image, "list IMAGE --unsound");
    let wanted = "bytes 6144, not 1228800; page count 600 but an index block's shape\n";
    assert!(list.contains(&format!("? FILE 0 READS:DATA PAGES 600 INDEXED: {wanted}")), "{list}");
    let read = run(&image, "read IMAGE @0/@0 --unsound");
    assert_eq!((read.status, read.out.len()), (0, 600 * 2048));
    assert!(
        read.err.contains("\n? positions 3 to 511: no pointer, written as zeros\n"),
        "{}",
        read.err
    );
    assert!(
        read.err
            .ends_with("\n? positions 512 to 599: no slot, past the index block, written as zeros\n"),
        "{}",
        read.err
    );
}

#[test]
fn json_has_every_doubt() {
    let (folder, image) = sample();
    let image = with(&folder, &image, &[(6, 3, 147)]);
    let head = |value: &Value| ["number", "sound", "rule", "page", "word"].map(|name| value[name].clone());
    let place = [json!(0), json!(false), json!(8), json!(147), json!(0)];
    let list = json(&image, "list IMAGE --unsound --json");
    assert_eq!(head(&list), place);
    assert_eq!(list["doubts"], json!(["bit of page 7 set, and nobody holds it"]));
    let files = &list["users"][0]["files"];
    assert_eq!(files[0]["doubts"], json!(["page 147 is held by DOCK/LAMBS:DATA too"]));
    assert_eq!(files[1]["doubts"], json!(["page 147 is held by DOCK/READS:DATA too"]));
    let map = json(&image, "map IMAGE --unsound --json");
    assert_eq!((head(&map), map["holders"].as_array().map(Vec::len)), (place.clone(), Some(154)));
    assert_eq!(
        map["holders"][7],
        json!({ "holder": "free", "kind": 0, "user": 0, "file": 0, "position": 0, "doubts": ["set, no holder"] })
    );
    let first = json!({ "holder": "data page", "kind": 10, "position": 1, "user": 0, "file": 0, "doubts": ["held twice"] });
    assert_eq!(map["holders"][147], first);
    let who = json(&image, "who IMAGE 147 --unsound --json");
    assert_eq!(
        (head(&who), &who["asked"], &who["reserved"]),
        (place.clone(), &json!(147), &json!(true))
    );
    assert_eq!(
        (&who["holders"][1]["file_name"], &who["more_holders"]),
        (&json!("LAMBS"), &json!(false))
    );
    let read = json(
        &image,
        &format!("read IMAGE @0/@0 {} --unsound --json", folder.path("out").display()),
    );
    let positions = json!([{ "from": 1, "to": 1, "doubts": ["page 147 is held by DOCK/LAMBS:DATA too"] }]);
    assert_eq!((head(&read), &read["positions"], &read["bytes"]), (place, &positions, &json!(6144)));
    assert_eq!(json(&image, "page IMAGE 147 --unsound --json")["sound"], false);
}

#[test]
fn a_picture_marks_doubtful_pages() {
    let (folder, image) = sample();
    let image = with(&folder, &image, &[(6, 3, 147)]);
    let svg = folder.path("map.svg");
    let said = shows(&image, &format!("map IMAGE --svg {} --unsound", svg.display()));
    assert!(
        said.starts_with("the image is unsound: rule 8 is broken at page 147, word 0\nmap of YARD in "),
        "{said}"
    );
    let picture = std::fs::read_to_string(svg).unwrap();
    for words in [
        "<title>page 147: DOCK/READS:DATA data page 1 (held twice)</title>",
        "<title>page 7: free (set, no holder)</title>",
        "48 unreserved; the image is unsound: rule 8 is broken at page 147, word 0</title>",
        ">Doubtful pages</text>",
    ] {
        assert!(picture.contains(words), "{words}");
    }
}

/// All that is said of a case's image by the five commands, sound or not.
fn look(image: &Path, out: &Path) -> Vec<(String, Run)> {
    let read = format!("read IMAGE @0/@0 {}", out.display());
    let lines = [
        "list IMAGE",
        "map IMAGE --width 80",
        "who IMAGE 5",
        "who IMAGE 0",
        &read,
        "page IMAGE 4",
    ];
    lines
        .iter()
        .map(|line| (line.to_string(), run(image, &format!("{line} --unsound"))))
        .collect()
}

#[test]
fn every_case_is_looked_at() {
    let (folder, mut unsound) = (Folder::new(), 0);
    let out = folder.path("out");
    for Case { name, image: words } in cases(200) {
        let image = folder.put("case.img", &nord::store::bytes(&words));
        let before = std::fs::read(&image).unwrap();
        let sound = proved::check(&words).number == 0;
        unsound += u32::from(!sound);
        for (line, looked) in look(&image, &out) {
            let refused = line.starts_with("read") && [3, 4].contains(&looked.status);
            assert!(looked.status == 0 || refused, "{name}: {line}: {} {}", looked.status, looked.err);
            if sound || line.starts_with("page") {
                let plain = run(&image, &line);
                assert!(plain.out == looked.out && plain.err == looked.err, "{name}: {line}");
            }
        }
        if !sound {
            fails(&image, "list IMAGE", 3);
        }
        let rescue = run(&image, &format!("rescue IMAGE {}", folder.path("files").display()));
        assert_eq!((rescue.status, rescue.err.as_str()), (0, ""), "{name}");
        assert!(std::fs::read(&image).unwrap() == before, "{name}");
        let _ = std::fs::remove_dir_all(folder.path("files"));
        let _ = std::fs::remove_file(&out);
        assert_eq!(folder.names(), ["case.img"], "{name}");
    }
    assert!(unsound > 100, "{unsound}");
}

#[test]
fn noise_is_looked_at_too() {
    let folder = Folder::new();
    for seed in 0..8 {
        let image = folder.put("noise.img", &noise(seed, 9 * 2048));
        for line in [
            "list IMAGE --unsound",
            "map IMAGE --unsound",
            "who IMAGE 3 --unsound",
            "list IMAGE --unsound --json",
        ] {
            assert!(!shows(&image, line).is_empty(), "{line}");
        }
        let said = shows(&image, &format!("rescue IMAGE {}", folder.path("files").display()));
        assert!(said.contains("files may not be found: rule 2 at page 0, word 10"), "{said}");
    }
    fails(&folder.put("odd.img", &[0; 4097]), "list IMAGE --unsound", 1);
    fails(&folder.put("short.img", &[0; 7 * 2048]), "list IMAGE --unsound", 1);
    assert_eq!(folder.names(), ["noise.img", "odd.img", "short.img"]);
}

/// They only read: a writer's lock is not waited for, and nothing is made beside the image.
#[test]
fn no_lock_is_taken() {
    let (folder, image) = sample();
    let image = with(&folder, &image, &[(77, 6, 16)]);
    let locked = std::fs::File::open(&image).unwrap();
    locked.lock().unwrap();
    for line in COMMANDS {
        let start = std::time::Instant::now();
        seen(&image, &format!("{line} --unsound"));
        assert!(start.elapsed().as_secs() < 20, "{line}");
    }
    assert_eq!(folder.names(), ["broken.img", "disk.img"]);
}

/// 65,536 files that share a tree or a run.
#[test]
fn a_hostile_image_is_looked_at_in_bounded_time() {
    let folder = Folder::new();
    let image = folder.put("hostile.img", &nord::store::bytes(&shared_tree(16_384, 16_383)));
    let (out, files) = (folder.path("out"), folder.path("files"));
    for line in [
        "list IMAGE --unsound".to_string(),
        "map IMAGE --unsound --json".to_string(),
        "who IMAGE 6000 --unsound".to_string(),
        format!("read IMAGE @255/@255 {} --unsound", out.display()),
        format!("rescue IMAGE {}", files.display()),
    ] {
        let start = std::time::Instant::now();
        let (text, _) = seen(&image, &line);
        assert!(!text.is_empty() && start.elapsed().as_secs() < 60, "{line}: {:?}", start.elapsed());
    }
    assert_eq!(std::fs::metadata(out).unwrap().len(), 16_383 * 2048);
    assert_eq!(folder.names(), ["hostile.img", "out"]);
}
