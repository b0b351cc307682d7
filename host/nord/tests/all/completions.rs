//! What the shells complete: commands, options, words, and files where an image or another file is wanted.

use crate::common::{Folder, Run, NORD};
use std::path::Path;
use std::process::Command;

/// A folder with an image and a folder in it.
fn yard() -> Folder {
    let folder = Folder::new();
    folder.put("yard.img", b"");
    folder.put("two words.img", b"");
    folder.put("a:b.img", b"");
    std::fs::create_dir(folder.path("reads")).unwrap();
    folder
}

/// A line's words as bash parts them before it asks, the one at the cursor last.
fn parted(line: &str) -> Vec<String> {
    let mut words = Vec::new();
    for word in line.split(' ') {
        let pieces = word.split_inclusive(['=', ':', '@']);
        let apart = pieces.flat_map(|piece| match piece.strip_suffix(['=', ':', '@']) {
            Some(before) => vec![before, &piece[before.len()..]],
            None => vec![piece],
        });
        let apart: Vec<String> = apart.filter(|piece| !piece.is_empty()).map(str::to_string).collect();
        words.extend(if word.is_empty() { vec![String::new()] } else { apart });
    }
    words
}

/// What bash is offered at the end of a line, sorted.
fn offered(folder: &Path, line: &str) -> Vec<String> {
    const ASK: &str = r#"source <("$1" completions bash); COMP_LINE=$2 COMP_POINT=${#2}; COMP_WORDS=("${@:3}")
        COMP_CWORD=$((${#COMP_WORDS[@]} - 1)); _nord nord; [ ${#COMPREPLY[@]} = 0 ] || printf '%s\n' "${COMPREPLY[@]}" | sort"#;
    let mut bash = Command::new("bash");
    bash.args(["-c", ASK, "bash", NORD, line]).args(parted(line)).current_dir(folder);
    let run = Run::of(bash.env("LC_ALL", "C").output().unwrap());
    assert_eq!((run.status, run.err.as_str()), (0, ""), "{line}");
    run.text().lines().map(str::to_string).collect()
}

#[test]
fn bash_offers_commands_words_and_files() {
    let yard = yard();
    for (line, wanted) in [
        ("nord che", "check"),
        ("nord check ", "a:b.img|reads|two words.img|yard.img"),
        ("nord check ya", "yard.img"),
        ("nord check re", "reads"),
        ("nord check no", ""),
        ("nord check --json ya", "yard.img"),
        ("nord user ", "add|delete|give|help|take"),
        ("nord user gi", "give"),
        ("nord user add ya", "yard.img"),
        ("nord user add --wait 5 ya", "yard.img"),
        ("nord user add yard.img ", ""),
        ("nord map x.img --col", "--colour"),
        ("nord map x.img --colour ", "always|auto|never"),
        ("nord map x.img --colour=", "always|auto|never"),
        ("nord map x.img --colour=al", "always"),
        ("nord map x.img --svg ya", "yard.img"),
        ("nord convert x.img --to ", "apostrophe|zeros"),
        ("nord salvage x.img --orphans ", "reads"),
        ("nord write x.img DOCK/READS:DATA ya", "yard.img"),
        ("nord read x.img @0/@3 ya", "yard.img"),
        ("nord read x.img DOCK/READS:DA", ""),
        ("nord check a:b", "b.img"),
        ("nord completions z", "zsh"),
        ("nord help us", "user"),
        ("nord help user gi", "give"),
    ] {
        assert_eq!(offered(&yard.0, line).join("|"), wanted, "{line:?}");
    }
    let options = offered(&yard.0, "nord map x.img --");
    for option in ["--json", "--svg", "--width", "--colour", "--help"] {
        assert!(options.iter().any(|one| one == option), "{option}: {options:?}");
    }
    assert!(options.iter().all(|option| option.starts_with("--")), "{options:?}");
}

/// Where COMP_LINE is not there, the words are taken as they are.
#[test]
fn bash_needs_only_the_words() {
    let yard = yard();
    let ask = format!(
        "source <({NORD} completions bash); COMP_WORDS=(nord map x.img --colour al); COMP_CWORD=4; _nord nord; echo \"${{COMPREPLY[*]}}\""
    );
    let run = Run::of(Command::new("bash").args(["-c", &ask]).current_dir(&yard.0).output().unwrap());
    assert_eq!((run.text(), run.err.as_str()), ("always\n", ""));
}

/// The script for a shell.
fn script(shell: &str) -> String {
    Run::of(Command::new(NORD).args(["completions", shell]).output().unwrap())
        .text()
        .to_string()
}

/// Whether a shell is there to try its script.
fn is_there(shell: &str) -> bool {
    Command::new(shell).args(["-c", "exit 0"]).output().is_ok()
}

#[test]
fn bash_is_never_offered_the_name_of_an_argument() {
    assert!(!script("bash").contains("IMAGE"));
}

#[test]
fn zsh_completes_files_for_images() {
    let (yard, script) = (yard(), script("zsh"));
    assert!(script.contains("':image -- The image file:_files'"));
    assert!(script.contains(":FOLDER:_files -/"), "{script}");
    if is_there("zsh") {
        let path = yard.put("_nord", script.as_bytes());
        let run = Run::of(Command::new("zsh").arg("-n").arg(path).output().unwrap());
        assert_eq!((run.status, run.err.as_str()), (0, ""));
    }
}

#[test]
fn fish_completes_files_for_images() {
    let (yard, script) = (yard(), script("fish"));
    for seen in ["check", "map", "user; and __fish_seen_subcommand_from add"] {
        let line = format!("\ncomplete -c nord -n \"__fish_seen_subcommand_from {seen}\" -F\n");
        assert_eq!(script.matches(&line).count(), 1, "{line}");
    }
    assert!(script.contains("\ncomplete -c nord -n \"__fish_seen_subcommand_from completions\" -f -a \"bash "));
    if is_there("fish") {
        let path = yard.put("nord.fish", script.as_bytes());
        let ask = format!("source {}; complete -C 'nord check ya'", path.display());
        let run = Run::of(Command::new("fish").args(["-c", &ask]).current_dir(&yard.0).output().unwrap());
        assert_eq!((run.text(), run.err.as_str()), ("yard.img\n", ""));
    }
}
