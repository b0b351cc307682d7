//! The completions for a shell, made from the arguments' definitions.

mod bash;
mod fish;

use crate::args::Cli;
use clap::{Arg, Command, CommandFactory, ValueHint};
use clap_complete::Shell;

/// The script that a shell reads.
pub fn script(shell: Shell) -> String {
    let mut cli = Cli::command();
    if shell == Shell::Bash {
        cli.build();
        return bash::script(&cli);
    }
    let mut script = Vec::new();
    clap_complete::generate(shell, &mut cli, "nord", &mut script);
    let script = String::from_utf8_lossy(&script).into_owned();
    match shell {
        Shell::Fish => script + &fish::arguments(&cli),
        _ => script,
    }
}

/// What a value is completed with.
enum Kind {
    Words(Vec<String>),
    Files,
    Folders,
    /// A name in the image or a number: the shell knows none.
    Unknown,
}

impl Kind {
    fn of(argument: &Arg) -> Kind {
        let words: Vec<String> = argument
            .get_possible_values()
            .iter()
            .map(|value| value.get_name().to_string())
            .collect();
        match argument.get_value_hint() {
            _ if !words.is_empty() => Kind::Words(words),
            ValueHint::FilePath | ValueHint::AnyPath | ValueHint::ExecutablePath => Kind::Files,
            ValueHint::DirPath => Kind::Folders,
            _ => Kind::Unknown,
        }
    }
}

/// A command with the words that lead to it ("user add"; none lead to nord itself), and then those within it.
fn all<'a>(command: &'a Command, path: &[&'a str]) -> Vec<(Vec<&'a str>, &'a Command)> {
    let within = command
        .get_subcommands()
        .flat_map(|inner| all(inner, &[path, &[inner.get_name()]].concat()));
    std::iter::once((path.to_vec(), command)).chain(within).collect()
}
