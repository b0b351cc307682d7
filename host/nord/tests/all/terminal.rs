//! Long work shows a bar on a terminal and nothing in a pipe, and leaves only the answer.

use crate::common::{disk, done, noise, sample, words, NORD};
use crate::screen::Screen;
use std::path::Path;
use std::process::Command;

/// The line that writes a host's file to DOCK/READS:DATA.
fn writing(image: &Path, input: &Path) -> String {
    let line = format!("write IMAGE DOCK/READS:DATA {}", input.display());
    format!("{NORD} {}", words(image, &line).join(" "))
}

#[test]
fn a_bar_on_a_terminal_only() {
    let (folder, image) = disk(2048, 2000);
    let command = writing(&image, &folder.put("in.bin", &noise(1, 800 * 2048)));
    let seen = Screen::after(&command, 80).seen;
    assert!(seen.contains("writing") && seen.contains("/2048 pages"), "{seen}");
    assert!(seen.trim_end().ends_with("DOCK/READS:DATA created: 800 pages"), "{seen}");
    let in_pipe = Command::new("bash")
        .args(["-c", &format!("{command} 2>&1 | cat")])
        .output()
        .unwrap();
    assert_eq!(String::from_utf8_lossy(&in_pipe.stdout), "DOCK/READS:DATA replaced: 800 pages\n");
}

/// A line of the bar that is wider than the terminal goes on in the next row, and is left there when the bar is drawn anew.
#[test]
fn the_bar_is_no_wider_than_the_terminal_and_leaves_nothing() {
    let (folder, image) = disk(2048, 2000);
    let command = writing(&image, &folder.put("in.bin", &noise(2, 1800 * 2048)));
    let mut answer = "DOCK/READS:DATA created: 1800 pages";
    for columns in [20, 40, 79, 200] {
        let screen = Screen::after(&command, columns);
        assert!(screen.seen.contains("writing "), "{columns}: {}", screen.seen);
        assert_eq!(screen.rows().concat(), answer, "{columns}: {:?}", screen.seen);
        assert_eq!(screen.wraps, screen.rows().len() - 1, "{columns}: {:?}", screen.seen);
        done(&image, "file shrink IMAGE DOCK/READS:DATA 1800");
        answer = "DOCK/READS:DATA replaced: 1800 pages";
    }
}

#[test]
fn the_map_is_no_wider_than_the_terminal() {
    let (_folder, image) = sample();
    for columns in [20, 33, 40, 79] {
        let screen = Screen::after(&format!("{NORD} map {}", image.display()), columns);
        assert!(screen.rows().iter().any(|row| row.contains("bit file")), "{}", screen.seen);
        assert_eq!(screen.wraps, 0, "{columns}: {}", screen.seen);
    }
}
