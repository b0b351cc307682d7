//! An image with the low byte of each word first is refused, and the refusal says how to convert it.

use crate::common::{done, fails, run, sample, untried};
use std::fs;
use std::path::Path;
use std::process::Command;

/// Exchanges the bytes of each word of a file.
fn exchange(image: &Path) {
    let mut bytes = fs::read(image).unwrap();
    bytes.chunks_exact_mut(2).for_each(|pair| pair.swap(0, 1));
    fs::write(image, bytes).unwrap();
}

#[test]
fn the_hint_converts_the_image() {
    let (folder, image) = sample();
    let sound = fs::read(&image).unwrap();
    exchange(&image);
    let said = fails(&image, "check IMAGE", 3);
    let hint = said.lines().last().unwrap();
    assert!(hint.starts_with("  swapped   the image is sound with "), "{said}");
    let (_, command) = hint.split_once("first): ").unwrap();
    assert_eq!(command, format!("dd if={} of=swapped.img conv=swab", image.display()));
    match Command::new("sh").args(["-c", command]).current_dir(&folder.0).output() {
        Ok(output) => assert!(output.status.success(), "{output:?}"),
        Err(error) => return untried("dd", error),
    }
    assert!(fs::read(folder.path("swapped.img")).unwrap() == sound);
    done(&folder.path("swapped.img"), "check IMAGE");
    assert_eq!(run(&image, "check IMAGE --json").json()["swapped"], true);
}

#[test]
fn no_hint_where_it_would_not_help() {
    let (_folder, image) = sample();
    let mut bytes = fs::read(&image).unwrap();
    bytes[2 * 1023 + 1] ^= 1;
    fs::write(&image, &bytes).unwrap();
    for _ in 0..2 {
        assert!(!fails(&image, "check IMAGE", 3).contains("swapped"));
        assert!(run(&image, "check IMAGE --json").json().get("swapped").is_none());
        exchange(&image);
    }
}
