//! What programs are told: one shape, every field of which is in the manual.

use crate::common::{run, sample, Folder, Run, NORD};
use serde_json::{json, Value};
use std::collections::BTreeSet;
use std::path::{Path, PathBuf};
use std::process::Command;

/// The names of all fields of a value.
fn fields(value: &Value, all: &mut BTreeSet<String>) {
    match value {
        Value::Object(object) => object.iter().for_each(|(name, inner)| {
            all.insert(name.clone());
            fields(inner, all);
        }),
        Value::Array(list) => list.iter().for_each(|inner| fields(inner, all)),
        _ => {}
    }
}

/// The sample disk with some words changed.
fn changed(folder: &Folder, image: &Path, name: &str, words: &[(usize, usize, u16)]) -> PathBuf {
    let mut all = nord::store::words(&std::fs::read(image).unwrap());
    words.iter().for_each(|(page, word, value)| all[1024 * page + word] = *value);
    folder.put(name, &nord::store::bytes(&all))
}

/// Every command once, done and refused: each object has a number and fields that the manual names.
#[test]
fn every_field_is_in_the_manual() {
    let (folder, image) = sample();
    let path = |name: &str| folder.path(name).display().to_string();
    folder.put("in.txt", b"Ewe 513");
    let unsound = changed(&folder, &image, "bit.img", &[(77, 3, 1), (2, 17, 20)]);
    let twice = changed(&folder, &image, "twice.img", &[(6, 3, 5)]);
    let named = changed(&folder, &image, "named.img", &[(0, 1008, 0)]);
    let over = changed(&folder, &image, "over.img", &[(2, 15, 3)]);
    let short = folder.put("short.img", &[0; 5000]);
    let lines = [
        (&image, "check IMAGE".to_string()),
        (&image, "list IMAGE".to_string()),
        (&image, format!("map IMAGE --svg {}", path("map.svg"))),
        (&image, "who IMAGE 5".to_string()),
        (&image, "find IMAGE DOCK/READS:DATA".to_string()),
        (&image, "address IMAGE DOCK/READS:DATA 0".to_string()),
        (&image, "page IMAGE 2 16".to_string()),
        (&image, "page IMAGE 0".to_string()),
        (&image, format!("read IMAGE DOCK/READS:DATA {}", path("out.bin"))),
        (&image, format!("write IMAGE DOCK/NOTE:TEXT {}", path("in.txt"))),
        (&image, format!("import IMAGE DOCK {}", path("in.txt"))),
        (&image, format!("export IMAGE DOCK {}", path("out"))),
        (&image, "user add IMAGE FLOCK".to_string()),
        (&image, "user give IMAGE FLOCK 9".to_string()),
        (&image, "user give IMAGE FLOCK 99".to_string()),
        (&image, "file create IMAGE FLOCK/LOG".to_string()),
        (&image, "file grow IMAGE FLOCK/LOG 2".to_string()),
        (&image, "file shrink IMAGE FLOCK/LOG".to_string()),
        (&image, "convert IMAGE --to apostrophe".to_string()),
        (&image, "convert IMAGE --to zeros".to_string()),
        (&image, "format IMAGE NEW --force".to_string()),
        (&unsound, "check IMAGE".to_string()),
        (&unsound, "list IMAGE".to_string()),
        (&unsound, "list IMAGE --unsound".to_string()),
        (&unsound, "map IMAGE --unsound".to_string()),
        (&twice, "who IMAGE 5 --unsound".to_string()),
        (&twice, format!("read IMAGE DOCK/READS:DATA {} --unsound", path("doubtful.bin"))),
        (&twice, format!("rescue IMAGE {}", path("rescued"))),
        (&unsound, format!("salvage IMAGE --orphans {}", path("orphans"))),
        (&twice, "check IMAGE".to_string()),
        (&named, "page IMAGE 0".to_string()),
        (&over, "salvage IMAGE".to_string()),
        (&short, "check IMAGE".to_string()),
        (&short, "who IMAGE five".to_string()),
    ];
    let manual = nord::manual::page();
    let mut all = BTreeSet::new();
    for (image, line) in &lines {
        let told = run(image, &format!("{line} --json"));
        let object = told.json();
        assert_eq!(object["number"], told.status, "{line}");
        assert_eq!(object["error"].is_string(), told.status != 0, "{line}");
        assert!(object["rule"].is_number() || told.status == 0, "{line}");
        fields(&object, &mut all);
    }
    assert!(all.len() > 80, "{} fields", all.len());
    for field in all {
        assert!(manual.contains(&format!("\"{field}\"")), "{field}");
    }
}

#[test]
fn a_wrong_use_is_told_to_programs_too() {
    let (_folder, image) = sample();
    for (line, words) in [
        ("who IMAGE five --json", "a number of decimal digits is wanted"),
        ("chek IMAGE --json", "chek"),
        ("user give IMAGE DOCK --json", "<COUNT>"),
        ("file grow IMAGE DOCK/READS:DATA 0 --json", "1 page or more"),
    ] {
        let run = run(&image, line);
        let told = run.json();
        assert_eq!((run.status, &told["number"], &told["rule"]), (64, &json!(64), &json!(0)), "{line}");
        assert!(told["error"].as_str().unwrap().contains(words), "{told}");
        assert_eq!(told.as_object().unwrap().len(), 3, "{told}");
    }
    // Without --json, and behind --, there is no object.
    for words in [&["who", "disk.img", "five"][..], &["who", "disk.img", "five", "--", "--json"]] {
        let run = Run::of(Command::new(NORD).args(words).output().unwrap());
        assert_eq!((run.status, run.text()), (64, ""));
    }
}

#[test]
fn pages_is_a_number_and_a_picture_has_its_path() {
    let (folder, image) = sample();
    let grown = run(&image, "file grow IMAGE DOCK/READS:DATA 2 --json").json();
    let shrunk = run(&image, "file shrink IMAGE DOCK/READS:DATA 2 --json").json();
    assert_eq!((&grown["pages"], &shrunk["pages"]), (&json!(2), &json!(2)));
    assert_eq!(grown["data"].as_array().unwrap().len(), 2);
    let svg = folder.path("map.svg").display().to_string();
    let mapped = run(&image, &format!("map IMAGE --json --svg {svg}")).json();
    assert_eq!(mapped["output"], json!(svg));
    assert_eq!(run(&image, "map IMAGE --json").json()["output"], Value::Null);
}
