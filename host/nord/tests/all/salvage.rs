//! Salvage as a user meets it: what is wrong and mended, pages that nobody holds copied out, what is refused and why.

use crate::broken::with;
use crate::common::{disk, done, fails, run, sample, Folder, Run, NORD};
use crate::host::meets_a_limit_of_file_sizes;
use serde_json::{json, Value};
use std::fs;
use std::os::unix::fs::MetadataExt;
use std::path::{Path, PathBuf};
use std::process::Command;

/// Words of an image, by page and word, and what they become.
type Words = [(usize, usize, u16)];

/// The sample disk with three held pages marked free, two pages reserved that nobody holds, and both counts wrong.
const DAMAGE: &Words = &[(0, 1023, 50), (2, 17, 12), (77, 0, 0o237), (77, 2, 0o1400)];

/// What is wrong with it, in words and as a table.
const WRONG: &str = "  user DOCK used 12 -> 14
  3 pages marked free that are held: 5, 6, 8
  2 pages reserved that no file and nothing else holds: 40, 41
  unreserved 50 -> 48
   page  word  old octal  new octal  what it is
      0  1023     000062     000060  unreserved pages, words 1022-1023 of the master block
      2    17     000014     000016  used pages of user 0 DOCK, words 16-17 of his entry
     77     0     000237     000777  bits of pages 0 to 15, word 0 of the bit file
     77     2     001400     000000  bits of pages 32 to 47, word 2 of the bit file
";

/// The sample disk with these words in a folder of its own.
fn damaged(words: &Words) -> (Folder, PathBuf, Vec<u8>) {
    let (folder, image) = sample();
    let sound = fs::read(&image).unwrap();
    fs::rename(with(&folder, &image, words), &image).unwrap();
    (folder, image, sound)
}

fn inode(image: &Path) -> u64 {
    fs::metadata(image).unwrap().ino()
}

/// The last line of what the check says of an unsound image.
fn check_says(image: &Path) -> String {
    let said = fails(image, "check IMAGE", 3);
    let last = said.lines().next_back().unwrap();
    last.strip_prefix("  salvage   ").unwrap_or_else(|| panic!("{said}")).to_string()
}

/// The answer as JSON.
fn answer(image: &Path, line: &str) -> Value {
    let run = run(image, &format!("{line} --json"));
    assert_eq!((run.status, run.err.as_str()), (0, ""), "{line}");
    run.json()
}

#[test]
fn bits_and_counts_are_mended_and_a_second_run_changes_nothing() {
    let (folder, image, sound) = damaged(DAMAGE);
    let before = inode(&image);
    let said = done(&image, "salvage IMAGE");
    let hint = format!(
        "the words of 2 pages that nobody holds may be somebody's reads, and a file that grows may take them now. To copy a page out before that:\n  \
         dd if={} of=page-00040.bin bs=2048 skip=40 count=1\n",
        image.display()
    );
    assert_eq!(said, format!("mended: 4 words changed, and the image is sound\n{WRONG}{hint}"));
    assert!(fs::read(&image).unwrap() == sound);
    assert!(inode(&image) != before, "the image is replaced");
    assert_eq!(done(&image, "check IMAGE"), "sound: 20 of 154 pages are held\n");
    let after = inode(&image);
    for line in ["salvage IMAGE", "salvage IMAGE --dry-run"] {
        assert_eq!(done(&image, line), "sound already: nothing to mend\n");
    }
    assert!(fs::read(&image).unwrap() == sound);
    assert_eq!(inode(&image), after, "nothing to mend, and the image is not replaced");
    assert_eq!(folder.names(), ["disk.img"]);
}

#[test]
fn a_dry_run_says_the_same_and_replaces_nothing() {
    let (folder, image, _) = damaged(DAMAGE);
    let (before, at_first) = (fs::read(&image).unwrap(), inode(&image));
    let said = done(&image, "salvage IMAGE --dry-run");
    let hint = format!(
        "the words of 2 pages that nobody holds may be somebody's reads, and after a salvage a file that grows may take them. To copy them out \
         first:\n  nord salvage {} --orphans FOLDER\n",
        image.display()
    );
    assert_eq!(
        said,
        format!("dry run: 4 words would change, and the image is as it was\n{WRONG}{hint}")
    );
    assert!(fs::read(&image).unwrap() == before && inode(&image) == at_first);
    assert_eq!(folder.names(), ["disk.img"]);
}

/// It only asks, so another writer is not waited for; a salvage is a writer itself.
#[test]
fn a_dry_run_needs_no_lock() {
    let (_folder, image, _) = damaged(DAMAGE);
    let writer = fs::File::open(&image).unwrap();
    writer.lock().unwrap();
    assert!(done(&image, "salvage IMAGE --dry-run --wait 0").starts_with("dry run: 4 words would change"));
    assert!(fails(&image, "salvage IMAGE --wait 0", 75).ends_with("disk.img: locked by another writer\n"));
}

#[test]
fn one_word_one_page_one_user() {
    let (_folder, image, sound) = damaged(&[(77, 6, 16)]);
    let said = done(&image, "salvage IMAGE");
    assert!(
        said.starts_with("mended: 1 word changed, and the image is sound\n  1 page reserved that no file and nothing else holds: 100\n"),
        "{said}"
    );
    assert!(fs::read(&image).unwrap() == sound);
    let (_folder, image, sound) = damaged(&[(77, 4, 0)]);
    let said = done(&image, "salvage IMAGE --dry-run");
    assert!(said.contains("\n  1 page marked free that is held: 77\n"), "{said}");
    done(&image, "salvage IMAGE");
    assert!(fs::read(&image).unwrap() == sound);
}

/// Both halves of a count, and the bits of pages that are not there: these are neither mended nor told.
#[test]
fn high_halves_and_bits_past_the_end() {
    let (_folder, image, mut sound) = damaged(&[(2, 16, 7), (0, 1022, 9), (77, 9, 0xfc00), (77, 10, 0xffff)]);
    let json = answer(&image, "salvage IMAGE");
    assert_eq!(json["unreserved"], json!({ "old": 9 * 65536 + 48, "new": 48 }));
    assert_eq!(
        json["users"],
        json!([{ "user": 0, "name": "DOCK", "old": 7 * 65536 + 14, "new": 14 }])
    );
    assert_eq!(json["held"], json!([144, 145, 146, 147, 148, 149, 150, 151, 152, 153]));
    assert_eq!(json["changed"], 3);
    let at = |word: usize| 2 * (77 * 1024 + word);
    sound[at(9)..at(10)].copy_from_slice(&0xffffu16.to_be_bytes());
    sound[at(10)..at(11)].copy_from_slice(&0xffffu16.to_be_bytes());
    assert!(fs::read(&image).unwrap() == sound);
    done(&image, "check IMAGE");
}

#[test]
fn runs_of_pages_and_long_lists() {
    let (_folder, image, _) = damaged(&[(77, 9, 0), (77, 2, 0x5555), (77, 3, 0x5555), (77, 5, 0x0ff0)]);
    let said = done(&image, "salvage IMAGE");
    assert!(said.contains("  10 pages marked free that are held: 144-153\n"), "{said}");
    assert!(
        said.contains(": 32, 34, 36, 38, 40, 42, 44, 46, 48, 50, 52, 54, 56, 58, 60, 62, and 8 pages more\n"),
        "{said}"
    );
}

#[test]
fn many_users_and_many_words_are_counted() {
    let (_folder, image) = disk(700, 1);
    let mut words = nord::store::words(&fs::read(&image).unwrap());
    (1..40).for_each(|n| assert_eq!(proved::create_user(&mut words, format!("U{n}").as_bytes()).number, 0));
    for user in 0..40 {
        let page = if user < 32 { 2 } else { 4 };
        words[1024 * page + 32 * (user % 32) + 17] = 3;
    }
    fs::write(&image, nord::store::bytes(&words)).unwrap();
    let said = done(&image, "salvage IMAGE");
    assert!(said.starts_with("mended: 40 words changed"), "{said}");
    assert!(
        said.contains("\n  user U15 used 3 -> 0\n  and 24 users more (--json has all)\n"),
        "{said}"
    );
    assert!(said.ends_with("\n  and 24 words more (--json has all)\n"), "{said}");
    done(&image, "check IMAGE");
}

#[test]
fn every_record_and_every_fact_as_json() {
    let (folder, image, _) = damaged(DAMAGE);
    let change = |page: u32, word: u32, old: u32, new: u32| json!({ "page": page, "word": word, "old": old, "new": new });
    let mut wanted = json!({
        "number": 0, "changed": 4,
        "changes": [change(0, 1023, 50, 48), change(2, 17, 12, 14), change(77, 0, 159, 511), change(77, 2, 768, 0)],
        "users": [{ "user": 0, "name": "DOCK", "old": 12, "new": 14 }],
        "unreserved": { "old": 50, "new": 48 },
        "held": [5, 6, 8], "orphans": [40, 41],
        "dry_run": true, "replaced": false, "folder": null, "written": null,
    });
    assert_eq!(answer(&image, "salvage IMAGE --dry-run"), wanted);
    let out = folder.path("out");
    (wanted["dry_run"], wanted["replaced"]) = (false.into(), true.into());
    (wanted["folder"], wanted["written"]) = (out.to_str().unwrap().into(), 2.into());
    let line = format!("salvage IMAGE --orphans {}", out.display());
    assert_eq!(answer(&image, &line), wanted);
    let nothing = json!({
        "number": 0, "changed": 0, "changes": [], "users": [], "unreserved": { "old": 48, "new": 48 }, "held": [], "orphans": [],
        "dry_run": false, "replaced": false, "folder": null, "written": null,
    });
    assert_eq!(answer(&image, "salvage IMAGE"), nothing);
}

/// The pages that nobody holds, with words of their own.
fn with_orphans() -> (Folder, PathBuf) {
    let (folder, image, _) = damaged(DAMAGE);
    fs::rename(
        with(&folder, &image, &[(40, 0, 0x4577), (40, 1, 0x6520), (41, 1023, 0x0a0d)]),
        &image,
    )
    .unwrap();
    (folder, image)
}

#[test]
fn orphans_are_copied_out_before_the_image_is_replaced() {
    let (folder, image) = with_orphans();
    let out = folder.path("deep/reads");
    let line = format!("salvage IMAGE --orphans {}", out.display());
    let before = fs::read(&image).unwrap();
    let dry = done(&image, &format!("{line} --dry-run"));
    let last = format!("2 pages copied out to {}\n", out.display());
    assert!(dry.starts_with("dry run: 4 words would change") && dry.ends_with(&last), "{dry}");
    assert!(fs::read(&image).unwrap() == before);
    for page in [40, 41] {
        let copied = fs::read(out.join(format!("page-000{page}.bin"))).unwrap();
        assert!(copied == before[2048 * page..][..2048], "page {page}");
    }
    let said = done(&image, &line);
    let last = format!(
        "2 pages copied out to {}: 0 written, 2 there already with the same words\n",
        out.display()
    );
    assert!(said.starts_with("mended: 4 words changed") && said.ends_with(&last), "{said}");
    assert_eq!(fs::read_dir(&out).unwrap().count(), 2);
    let absent = folder.path("absent");
    let line = format!("salvage IMAGE --orphans {}", absent.display());
    assert_eq!(done(&image, &line), "sound already: nothing to mend\n");
    assert!(!absent.exists(), "a folder is made for pages");
}

#[test]
fn no_file_is_written_over() {
    let (folder, image) = with_orphans();
    let out = folder.path("out");
    fs::create_dir(&out).unwrap();
    let line = format!("salvage IMAGE --orphans {}", out.display());
    for other in [&b"somebody's"[..], &[7; 2048]] {
        fs::write(out.join("page-00041.bin"), other).unwrap();
        for line in [line.clone(), format!("{line} --dry-run")] {
            let said = fails(&image, &line, 74);
            let wanted = "page-00041.bin: is there already, with other content: no page is copied out, and the image is as it was\n";
            assert!(said.ends_with(wanted), "{said}");
        }
        assert!(fs::read(out.join("page-00041.bin")).unwrap() == other);
        assert_eq!(fs::read_dir(&out).unwrap().count(), 1);
    }
    fs::remove_file(out.join("page-00041.bin")).unwrap();
    fs::create_dir(out.join("page-00041.bin")).unwrap();
    fails(&image, &line, 74);
    let file = folder.put("file", b"no folder");
    fails(&image, &format!("salvage IMAGE --orphans {}", file.display()), 74);
    assert_eq!(fs::read(&file).unwrap(), b"no folder");
    fails(&image, &format!("salvage IMAGE --orphans {}", image.display()), 74);
}

/// What a killed run has left in the folder goes away; what is not ours stays.
#[test]
fn leftovers_in_the_folder_are_swept() {
    let (folder, image) = with_orphans();
    let out = folder.path("out");
    fs::create_dir(&out).unwrap();
    for name in [
        ".page-00040.bin.nord-99999999",
        ".page-00007.bin.nord-1",
        ".notes.nord-1",
        "page-00012.bin",
    ] {
        fs::write(out.join(name), b"left").unwrap();
    }
    done(&image, &format!("salvage IMAGE --orphans {}", out.display()));
    let mut names: Vec<String> = fs::read_dir(&out)
        .unwrap()
        .map(|entry| entry.unwrap().file_name().into_string().unwrap())
        .collect();
    names.sort();
    assert_eq!(names, [".notes.nord-1", "page-00012.bin", "page-00040.bin", "page-00041.bin"]);
}

#[test]
fn a_page_that_cannot_be_copied_out_leaves_the_image() {
    let (folder, image) = with_orphans();
    let script = format!(
        "trap '' XFSZ; ulimit -f 1; exec {} salvage {} --orphans {}",
        NORD,
        image.display(),
        folder.path("out").display()
    );
    let before = fs::read(&image).unwrap();
    let run = Run::of(Command::new("bash").args(["-c", &script]).output().unwrap());
    assert_eq!(run.status, 74);
    assert!(run.err.contains("page-00040.bin: File too large"), "{}", run.err);
    assert!(fs::read(&image).unwrap() == before);
    assert_eq!(fs::read_dir(folder.path("out")).unwrap().count(), 0);
}

#[test]
fn an_image_that_cannot_be_written_is_left() {
    let (folder, image, _) = damaged(DAMAGE);
    meets_a_limit_of_file_sizes(&folder, &image, &format!("salvage {}", image.display()));
}

/// A file of 512 reads, each on a page of its own, and read 513 written on a free page whose pointer is laid over pointer 1. Gives the page of the
/// first read.
fn mission() -> (Folder, PathBuf, usize) {
    let (folder, image) = disk(700, 600);
    let reads: Vec<u8> = (1..=512).flat_map(read).collect();
    let reads = folder.put("reads.bin", &reads);
    done(&image, &format!("write IMAGE DOCK/READS:DATA {}", reads.display()));
    let page = |position: u32| {
        let said = done(&image, &format!("address IMAGE DOCK/READS:DATA {position}"));
        said["page ".len()..].trim().parse::<usize>().unwrap()
    };
    // The first grow takes the data page and then the index block.
    let (first, index, new) = (page(0), page(0) + 1, page(511) + 1);
    assert_eq!(done(&image, &format!("who IMAGE {new}")), "free\n");
    let mut bytes = fs::read(&image).unwrap();
    bytes[2048 * new..][..2048].copy_from_slice(&read(513));
    let (bit_page, slot) = (350, 2048 * index + 2);
    bytes[slot..slot + 2].copy_from_slice(&(new as u16).to_be_bytes());
    // Bits are counted from the right of a word, whose high byte comes first.
    bytes[2048 * bit_page + 2 * (new / 16) + 1 - new % 16 / 8] |= 1 << (new % 8);
    fs::write(&image, bytes).unwrap();
    (folder, image, first)
}

/// A page that begins with a read.
fn read(n: u32) -> Vec<u8> {
    let mut page = format!("Ewe {n} came by the north gate.\n").into_bytes();
    page.resize(2048, 0);
    page
}

#[test]
fn the_first_ewe_is_found_in_the_folder() {
    let (folder, image, first) = mission();
    assert_eq!(
        check_says(&image),
        format!(
            "can mend this by changing 1 word: nord salvage {} --orphans FOLDER (copies out 1 page that nobody holds first)",
            image.display()
        )
    );
    let out = folder.path("ewes");
    let said = done(&image, &format!("salvage IMAGE --orphans {}", out.display()));
    assert!(
        said.contains(&format!("\n  1 page reserved that no file and nothing else holds: {first}\n")),
        "{said}"
    );
    assert!(said.ends_with(&format!("\n1 page copied out to {}\n", out.display())), "{said}");
    assert!(fs::read(out.join(format!("page-{first:05}.bin"))).unwrap() == read(1));
    done(&image, "check IMAGE");
    let all = folder.path("all.bin");
    done(&image, &format!("read IMAGE DOCK/READS:DATA {}", all.display()));
    assert!(
        fs::read(&all).unwrap()[..2048] == read(513),
        "the file has read 513 in the first's place"
    );
}

/// With 513 pages under a single index the file's shape is wrong: that is rule 7, and salvage leaves it alone.
#[test]
fn a_count_of_513_under_a_single_index_is_left_alone() {
    let (folder, image, _) = mission();
    let counts = [(4, 27, 513), (4, 28, 16), (4, 29, 2048)];
    fs::rename(with(&folder, &image, &counts), &image).unwrap();
    let alone = "cannot mend this: rule 7 is broken at page 4, word 30, and salvage rewrites bits, used counts and unreserved, and leaves \
                 pointers, names and files' entries alone";
    assert_eq!(check_says(&image), alone);
    let check = fails(&image, "check IMAGE", 3);
    let out = folder.path("ewes");
    let line = format!("salvage IMAGE --orphans {}", out.display());
    assert_eq!(fails(&image, &line, 3), check, "both say it in the same words");
    assert!(!out.exists());
    let of = |line: &str| run(&image, &format!("{line} --json")).json();
    let json = of("salvage IMAGE");
    assert_eq!(json, of("check IMAGE"));
    assert_eq!(
        (&json["number"], &json["rule"], &json["page"], &json["word"]),
        (&json!(3), &json!(7), &json!(4), &json!(30))
    );
    assert_eq!(json["salvage"]["mends"], false);
}

#[test]
fn check_says_whether_salvage_can_mend_it() {
    let can = |words: &str, image: &Path| format!("can mend this by changing {words}: nord salvage {}", image.display());
    let cases: [(&Words, &str); 5] = [
        (&[(77, 0, 0o737)], "1 word"),
        (&[(2, 17, 13)], "1 word"),
        (&[(0, 1023, 49)], "1 word"),
        (&[(2, 17, 101)], "1 word"),
        (&[(2, 16, 1), (2, 17, 0), (0, 1022, 3)], "3 words"),
    ];
    for (words, changed) in cases {
        let (_folder, image, sound) = damaged(words);
        assert_eq!(check_says(&image), can(changed, &image));
        let json = run(&image, "check IMAGE --json").json();
        assert_eq!(json["salvage"], json!({ "mends": true, "changed": words.len(), "orphans": 0 }));
        done(&image, "salvage IMAGE");
        assert!(fs::read(&image).unwrap() == sound);
    }
    // Used above given is rule 4, but salvage looks on and finds rule 7.
    let (_folder, image, _) = damaged(&[(2, 17, 101), (4, 29, 1)]);
    assert!(check_says(&image).starts_with("cannot mend this: rule 7 is broken at page 4, word 28, and salvage rewrites bits,"));
    let json = run(&image, "check IMAGE --json").json();
    assert_eq!((&json["rule"], &json["salvage"]["rule"]), (&json!(4), &json!(7)));
    // A name of rule 4 is not tried at all.
    let (_folder, image, _) = damaged(&[(2, 2, 0x436b), (2, 17, 101)]);
    assert!(check_says(&image).starts_with("cannot mend this: rule 4 is broken at page 2, word 1, and"));
}

#[test]
fn number_13_says_who_holds_more_than_he_was_given() {
    let (_folder, image, _) = damaged(&[(2, 15, 10), (77, 0, 0o237)]);
    let wanted = format!(
        "nord: refused (13): a user holds more than he was given, or unreserved would be below zero: user 0 DOCK holds 14 pages and was given 10
  hint      salvage changes no given count: the one that does not fit is to be looked at first
  look at   nord page {} 2 14\n",
        image.display()
    );
    for line in ["salvage IMAGE", "salvage IMAGE --dry-run"] {
        assert_eq!(fails(&image, line, 13), wanted);
    }
    assert_eq!(check_says(&image), "cannot mend this: user 0 DOCK holds 14 pages and was given 10");
    let mut json = run(&image, "salvage IMAGE --json").json();
    json.as_object_mut().unwrap().remove("error").unwrap();
    let over = json!({ "user": 0, "name": "DOCK", "holds": 14, "given": 10 });
    assert_eq!(
        json,
        json!({ "number": 13, "rule": 0, "users": [over], "pages": 154, "given": 10, "system": 6, "below_zero": 0 })
    );
}

#[test]
fn number_13_says_by_how_much_unreserved_would_be_below_zero() {
    let (_folder, image, _) = damaged(&[(2, 15, 150)]);
    let sum = "unreserved would be 2 below zero: 154 pages less 150 given less 6 of the system";
    let said = fails(&image, "salvage IMAGE", 13);
    assert!(
        said.starts_with(&format!(
            "nord: refused (13): a user holds more than he was given, or unreserved would be below zero: {sum}\n"
        )),
        "{said}"
    );
    assert!(said.ends_with("disk.img 0 1022\n"), "{said}");
    assert_eq!(check_says(&image), format!("cannot mend this: {sum}"));
    let json = run(&image, "check IMAGE --json").json();
    assert_eq!(json["salvage"], json!({ "mends": false, "number": 13, "rule": 0, "why": sum }));
    // Exactly zero is right.
    let (_folder, image, _) = damaged(&[(2, 15, 148)]);
    assert!(done(&image, "salvage IMAGE").contains("  unreserved 48 -> 0\n"));
}

/// A user who holds too much and a sum below zero at once.
#[test]
fn number_13_says_every_reason() {
    let (_folder, image) = disk(40, 5);
    done(&image, "file create IMAGE DOCK/READS --contiguous 5");
    done(&image, "user add IMAGE FLOCK");
    let (folder, image) = (Folder::new(), image);
    let image = with(&folder, &image, &[(2, 15, 4), (2, 47, 32)]);
    let said = fails(&image, "salvage IMAGE", 13);
    assert!(
        said.contains(": user 0 DOCK holds 5 pages and was given 4\n  and       unreserved would be "),
        "{said}"
    );
    assert!(said.contains("below zero: 40 pages less 36 given less 6 of the system\n"), "{said}");
}

#[test]
fn lengths_and_uses_that_are_wrong() {
    let (folder, image) = sample();
    let bytes = fs::read(&image).unwrap();
    for length in [0, 7 * 2048, 8 * 2048 + 1, 8 * 2048 + 1024] {
        let short = folder.put("short.img", &bytes[..length]);
        for line in ["salvage IMAGE", "salvage IMAGE --dry-run"] {
            assert!(fails(&short, line, 1).starts_with("nord: refused (1): the length is no whole number of pages"));
        }
    }
    for line in ["salvage", "salvage IMAGE --orphans", "salvage IMAGE FOLDER"] {
        assert_eq!(run(&image, line).status, 64, "{line}");
    }
    assert_eq!(run(&folder.path("absent.img"), "salvage IMAGE").status, 74);
}
