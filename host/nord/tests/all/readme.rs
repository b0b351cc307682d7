//! The README's first use is run as it stands there, and says what stands there.

use crate::common::{Folder, NORD};
use std::path::Path;
use std::process::Command;

const README: &str = include_str!("../../../../README.md");

/// The lines of the blocks that are fenced as `console` under the heading "First use": the first use itself, and a salvage after it.
fn first_use() -> String {
    let after = README.split_once("\n## First use\n").expect("the heading").1;
    let section = after.split_once("\n## ").expect("the next heading").0;
    let blocks = section.split("```console\n").skip(1);
    blocks.map(|block| block.split_once("```").expect("its end").0).collect()
}

/// Each command, and the lines that follow it. A command that is lent lines (`<<`) has them behind `> `.
fn steps(block: &str) -> Vec<(String, String)> {
    let mut steps: Vec<(String, String)> = Vec::new();
    for line in block.lines() {
        match (line.strip_prefix("$ "), line.strip_prefix("> "), steps.last_mut()) {
            (Some(command), _, _) => steps.push((command.to_string(), String::new())),
            (None, Some(lent), Some((command, output))) if command.contains("<<") && output.is_empty() => {
                command.push_str(&format!("\n{lent}"));
            }
            (None, _, Some((_, output))) => output.push_str(&format!("{line}\n")),
            (None, _, None) => panic!("output before a command: {line}"),
        }
    }
    steps
}

#[test]
fn the_first_use_says_what_the_readme_says() {
    let folder = Folder::new();
    let path = format!("{}:{}", Path::new(NORD).parent().unwrap().display(), std::env::var("PATH").unwrap());
    let block = first_use();
    let steps = steps(&block);
    assert!(steps.len() > 20, "{} steps", steps.len());
    for (command, output) in steps {
        let run = Command::new("bash")
            .args(["-c", &format!("exec 2>&1; {command}")])
            .env("PATH", &path)
            .current_dir(&folder.0)
            .output()
            .unwrap();
        assert_eq!(String::from_utf8(run.stdout).unwrap(), output, "$ {command}");
    }
}
