//! What clap_complete leaves out for fish: the arguments that are no options.

use super::{all, Kind};
use clap::Command;

/// A line for each argument that is a file, a folder or one of some words.
pub fn arguments(cli: &Command) -> String {
    let mut lines = String::new();
    for (path, command) in all(cli, &[]) {
        let seen = path.iter().map(|word| format!("__fish_seen_subcommand_from {word}"));
        let seen = seen.collect::<Vec<_>>().join("; and ");
        for argument in command.get_positionals() {
            let wanted = match Kind::of(argument) {
                Kind::Files => "-F".to_string(),
                Kind::Folders => "-f -a \"(__fish_complete_directories)\"".to_string(),
                Kind::Words(words) => format!("-f -a \"{}\"", words.join(" ")),
                Kind::Unknown => continue,
            };
            let line = format!("complete -c nord -n \"{seen}\" {wanted}\n");
            if !lines.ends_with(&line) {
                lines.push_str(&line);
            }
        }
    }
    lines
}
