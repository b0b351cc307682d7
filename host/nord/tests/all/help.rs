//! Help, the manual page and the completions have every command.

use crate::common::{run, untried, Run};
use clap::CommandFactory;
use std::path::Path;
use std::process::Command;

/// All commands, as the words after `nord`.
fn commands() -> Vec<String> {
    let cli = nord::args::Cli::command();
    let mut all = Vec::new();
    for command in cli.get_subcommands() {
        match command.has_subcommands() {
            false => all.push(command.get_name().to_string()),
            true => all.extend(
                command
                    .get_subcommands()
                    .map(|inner| format!("{} {}", command.get_name(), inner.get_name())),
            ),
        }
    }
    all
}

fn nord(line: &str) -> Run {
    run(Path::new(""), line)
}

#[test]
fn all_the_commands_are_there() {
    let wanted =
        "check list format convert salvage rescue user add user delete user give user take file create file grow file shrink file delete file open \
                  read write import export run find address who page map sample manual completions";
    assert_eq!(commands().join(" "), wanted);
}

#[test]
fn help_for_each_command_has_an_example() {
    for command in commands() {
        for line in [format!("{command} --help"), format!("help {command}")] {
            let help = nord(&line);
            assert_eq!((help.status, help.err.as_str()), (0, ""), "{line}");
            assert!(
                help.text().contains(&format!("Example:\n  nord {command}")),
                "{line}: {}",
                help.text()
            );
        }
    }
}

#[test]
fn the_manual_is_nord_1_and_has_every_command() {
    let manual = nord("manual");
    assert_eq!(
        manual.text(),
        include_str!("../../nord.1"),
        "write it anew: nord manual >host/nord/nord.1"
    );
    for command in commands() {
        assert!(manual.text().contains(&format!(".SS nord {command}\n")), "{command}");
    }
}

#[test]
fn the_manual_has_defaults_and_the_words_of_options() {
    let manual = nord("manual");
    for said in [
        "0 fails at once.\nDefault: 60.\n",
        ".B [COUNT]\nHow many pages.\nDefault: 1.\n",
        ".B [\\-\\-colour COLOUR]\nColours in the text.\nDefault: auto.\nOne of: auto, always, never.\n",
        "or zeros (alone).\nOne of: apostrophe, zeros.\n",
        ".B SHELL\nThe shell.\nOne of: bash, elvish, fish, powershell, zsh.\n",
        ".B [\\-\\-json]\nAnswer with a JSON object.\n.TP\n",
    ] {
        assert!(manual.text().contains(said), "{said}");
    }
}

#[test]
fn the_manual_is_well_formed() {
    let path = Path::new(env!("CARGO_MANIFEST_DIR")).join("nord.1");
    match Command::new("groff").args(["-man", "-Tutf8", "-ww", "-z"]).arg(path).output() {
        Ok(output) => assert_eq!(String::from_utf8_lossy(&output.stderr), ""),
        Err(error) => untried("groff", error),
    }
}

#[test]
fn completions_know_the_commands() {
    for shell in ["bash", "zsh", "fish"] {
        let script = nord(&format!("completions {shell}"));
        assert_eq!(script.status, 0);
        for command in commands() {
            let last = command.split(' ').next_back().unwrap();
            assert!(script.text().contains(last), "{shell}: {command}");
        }
    }
    assert_eq!(nord("completions tcsh").status, 64);
}
