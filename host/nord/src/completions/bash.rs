//! The completions for bash: a table of what stands where, and a function that looks up the word at the cursor. clap_complete's own offer
//! an argument's name, as <IMAGE>, where a file is wanted.

use super::{all, Kind};
use clap::{Arg, Command};
use std::fmt::Write;

pub fn script(cli: &Command) -> String {
    let mut script = String::from(TABLE);
    for (path, command) in all(cli, &[]) {
        let path = path.join(" ");
        for (place, wanted) in places(command) {
            let _ = writeln!(script, "        '{path},{place}') echo {wanted} ;;");
        }
    }
    script + FUNCTION
}

/// The places of a command: its options all together, the value of each that has one, and its arguments by number, where the last may be
/// given more than once.
fn places(command: &Command) -> Vec<(String, String)> {
    let options: Vec<&Arg> = command.get_arguments().filter(|argument| !argument.is_positional()).collect();
    let spelled = |option: &&Arg| {
        let long = option.get_long().map(|long| format!("--{long}"));
        [long, option.get_short().map(|short| format!("-{short}"))]
            .into_iter()
            .flatten()
            .collect::<Vec<_>>()
    };
    let mut places = vec![("-".to_string(), words(options.iter().flat_map(spelled)))];
    for option in options.iter().filter(|option| option.get_action().takes_values()) {
        places.extend(spelled(option).into_iter().map(|spelled| (spelled, wanted(option))));
    }
    if command.has_subcommands() {
        places.push((
            "0".to_string(),
            words(command.get_subcommands().map(|inner| inner.get_name().to_string())),
        ));
    }
    for (at, argument) in command.get_positionals().enumerate() {
        places.push((at.to_string(), wanted(argument)));
        if argument.get_num_args().is_some_and(|many| many.max_values() > 1) {
            places.push(("more".to_string(), wanted(argument)));
        }
    }
    places
}

fn wanted(argument: &Arg) -> String {
    match Kind::of(argument) {
        Kind::Words(of) => words(of),
        Kind::Files => "files".to_string(),
        Kind::Folders => "folders".to_string(),
        Kind::Unknown => "unknown".to_string(),
    }
}

fn words(words: impl IntoIterator<Item = String>) -> String {
    words.into_iter().fold("words".to_string(), |all, word| format!("{all} {word}"))
}

const TABLE: &str = r#"# What stands at a place of a command: words, files, folders, or what is unknown here. A place is an option, the
# number of an argument, more for those behind the last number, or - for the options.
_nord_wants() {
    case "$1,$2" in
"#;

const FUNCTION: &str = r#"    esac
}

# The words up to the cursor, whole: bash parts them at = : and @ too.
_nord_words() {
    local rest=$COMP_LINE part i
    words=()
    for ((i = 0; i <= COMP_CWORD; i++)); do
        part=${COMP_WORDS[i]}
        if [[ i -gt 0 && -n $rest && $rest != [[:space:]]* ]]; then
            words[${#words[@]} - 1]+=$part
        else
            words+=("$part")
        fi
        rest=${rest#"${rest%%[![:space:]]*}"}
        rest=${rest#"$part"}
    done
}

_nord() {
    local words command= at=0 option= i word found kind offered
    _nord_words
    local last=$((${#words[@]} - 1))
    for ((i = 1; i < last; i++)); do
        word=${words[i]}
        if [[ -n $option ]]; then
            option=
        elif [[ $word == -* ]]; then
            [[ -z $(_nord_wants "$command" "$word") ]] || option=$word
        elif [[ -n $(_nord_wants "${command:+$command }$word" -) ]]; then
            command=${command:+$command }$word at=0
        else
            at=$((at + 1))
        fi
    done
    word=${words[last]}
    case $word in
        --*=*) option=${word%%=*} word=${word#*=} ;;
        -*) [[ -n $option ]] || option=- ;;
    esac
    found=$(_nord_wants "$command" "${option:-$at}")
    [[ -n $found$option ]] || found=$(_nord_wants "$command" more)
    read -r kind offered <<<"$found"
    COMPREPLY=()
    case $kind in
        words) mapfile -t COMPREPLY < <(compgen -W "$offered" -- "$word") ;;
        files)
            # Readline quotes names where that is needed, and looks itself where the name is quoted already.
            compopt -o filenames -o default 2>/dev/null
            mapfile -t COMPREPLY < <(compgen -f -- "$word")
            ;;
        folders)
            compopt -o filenames -o dirnames 2>/dev/null
            mapfile -t COMPREPLY < <(compgen -d -- "$word")
            ;;
    esac
    # What was parted off stays as it stands before the cursor.
    local part=${COMP_WORDS[COMP_CWORD]}
    [[ $part != [=:@] ]] || part=
    COMPREPLY=("${COMPREPLY[@]#"${word%"$part"}"}")
}

complete -F _nord nord
"#;

#[cfg(test)]
mod tests {
    use super::*;
    use clap::ValueHint;

    #[test]
    fn the_last_argument_may_be_given_more_than_once() {
        let files = Arg::new("files").num_args(1..).value_hint(ValueHint::FilePath);
        let mut command = Command::new("import").disable_help_flag(true).arg(Arg::new("user")).arg(files);
        command.build();
        let wanted = [("-", "words"), ("0", "unknown"), ("1", "files"), ("more", "files")];
        assert_eq!(places(&command), wanted.map(|(place, kind)| (place.to_string(), kind.to_string())));
    }
}
