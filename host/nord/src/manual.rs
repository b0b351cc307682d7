//! The manual page, made from the arguments' definitions, so that no command is forgotten in it.

mod json;

use crate::answers;
use crate::args::Cli;
use crate::limits::{most_pages, pages_to_a_bit_page};
use clap::{Arg, Command, CommandFactory};
use std::fmt::Write;

/// The page in the form that `man` reads. nord.1 is this text.
pub fn page() -> String {
    let mut page = String::from(HEAD);
    let mut cli = Cli::command();
    cli.build();
    for command in cli.get_subcommands().filter(|command| command.get_name() != "help") {
        match command.has_subcommands() {
            false => section(&mut page, command, "nord"),
            true => {
                let name = format!("nord {}", command.get_name());
                command
                    .get_subcommands()
                    .filter(|inner| inner.get_name() != "help")
                    .for_each(|inner| section(&mut page, inner, &name));
            }
        }
    }
    page.push_str(PACKS);
    page.push_str(NAMES);
    page.push_str(FILES);
    page.push_str(STATUS);
    page.push_str(json::JSON);
    page.push_str(UNSOUND);
    page.push_str(SALVAGE);
    page.push_str(".SH RULES OF A SOUND IMAGE\nRefusal 3 names the lowest broken rule of these. P is the number of pages.\n");
    for number in 1..=10 {
        let _ = write!(page, ".TP\n{number}\n{}\n", escape(answers::rule(number)));
    }
    page
}

/// One command: how it is called, what it does, its arguments, an example.
fn section(page: &mut String, command: &Command, before: &str) {
    let name = format!("{before} {}", command.get_name());
    let mut arguments: Vec<&Arg> = command.get_arguments().filter(|argument| argument.get_id() != "help").collect();
    arguments.sort_by_key(|argument| argument.get_long().is_some());
    let call = arguments.iter().map(|argument| form(argument)).collect::<Vec<_>>().join(" ");
    let about = command.get_about().map(|about| about.to_string()).unwrap_or_default();
    let _ = write!(
        page,
        ".SS {name}\n.B {}\n.PP\n{}.\n",
        escape(format!("{name} {call}").trim()),
        escape(&about)
    );
    for argument in arguments {
        let help = argument.get_help().map(|help| help.to_string()).unwrap_or_default();
        let text = [format!("{help}.")]
            .into_iter()
            .chain(values(argument))
            .collect::<Vec<_>>()
            .join("\n");
        let _ = write!(page, ".TP\n.B {}\n{}\n", escape(&form(argument)), escape(&text));
    }
    for part in command
        .get_after_help()
        .map(|help| help.to_string())
        .unwrap_or_default()
        .split("\n\n")
    {
        match part.trim_end().strip_prefix("Example:\n") {
            Some(example) => _ = write!(page, ".PP\nExample:\n.PP\n.nf\n{}\n.fi\n", escape(example)),
            None if !part.trim().is_empty() => _ = write!(page, ".PP\n{}\n", escape(part.trim())),
            None => {}
        }
    }
}

/// What an argument is where it is not given, and the words that it can be. A switch is there or not: it has no values.
fn values(argument: &Arg) -> Vec<String> {
    if !argument.get_action().takes_values() {
        return Vec::new();
    }
    let default: Vec<_> = argument.get_default_values().iter().map(|value| value.to_string_lossy()).collect();
    let possible = argument.get_possible_values();
    let words: Vec<&str> = possible
        .iter()
        .filter(|value| !value.is_hide_set())
        .map(|value| value.get_name())
        .collect();
    let sentences = [("Default", default.join(" ")), ("One of", words.join(", "))].into_iter();
    let said = sentences.filter(|(_, values)| !values.is_empty());
    said.map(|(what, values)| format!("{what}: {values}.")).collect()
}

/// An argument as it stands in a call: IMAGE, [OUTPUT], [--pages COUNT].
fn form(argument: &Arg) -> String {
    let value = argument.get_value_names().map(|names| names[0].to_string()).unwrap_or_default();
    let text = match (argument.get_long(), argument.get_action().takes_values()) {
        (Some(long), true) => format!("--{long} {value}"),
        (Some(long), false) => format!("--{long}"),
        (None, _) => value,
    };
    match argument.is_required_set() {
        true => text,
        false => format!("[{text}]"),
    }
}

/// Text that `man` shows as it is.
fn escape(text: &str) -> String {
    let safe = text.replace('\\', "\\e").replace('-', "\\-");
    safe.lines()
        .map(|line| {
            if line.starts_with(['.', '\'']) {
                format!("\\&{line}")
            } else {
                line.to_string()
            }
        })
        .collect::<Vec<_>>()
        .join("\n")
}

const HEAD: &str = concat!(
    r#".TH NORD 1
.SH NAME
nord \- check, list and change NORD File System disk images
.SH SYNOPSIS
.B nord
.I COMMAND
.I IMAGE
\&...
.SH DESCRIPTION
An image is a file of 8 to "#,
    most_pages!(),
    r#" pages of 2,048 bytes, words of 16 bits with the high byte first. Every change is made by a library whose
calls are proved against the rules of the file system, on a copy in memory; then the image file is replaced whole. A command that is refused,
fails or is killed leaves the image as it was, or as the whole command makes it.
.PP
Long work shows a bar on a terminal. With
.B \-\-json
a command answers with an object for programs, of which JSON below tells.
.SH COMMANDS
"#
);

const PACKS: &str = concat!(
    r#".SH LARGE PACKS
The bit file has a page for each "#,
    pages_to_a_bit_page!(),
    r#" pages of the volume, rounded up: three on a pack of 37,035 pages, nine on one of
"#,
    most_pages!(),
    r#". They follow each other from the page on that the bit file pointer names;
.B nord format
begins them at the middle page, or where it is told. The bit of page p is bit p % 16, from the right, of word p / 16 % 1,024 of the page that lies
p / "#,
    pages_to_a_bit_page!(),
    r#" behind the first.
.B nord who
says which of them a page is, and
.B nord page
of which pages each of their words tells.
.PP
.B nord map
draws a cell for each page of a volume of up to "#,
    pages_to_a_bit_page!(),
    r#" pages. On a larger one a cell is 2, 4, 8 or more pages that follow each
other, and the map says how many. In a terminal they are so many that there are at most 40 rows. A cell has a point where all its pages are free, else
the letter of whoever holds most of them, a capital where none of them is free; M and B are where the master block and the bit file lie. The picture
has at most "#,
    pages_to_a_bit_page!(),
    r#" cells. Each has the colour of whoever holds most of its pages, the paler the more of them are free, and tells how many
each holds. With
.B \-\-json
the map has the holder of every page.
.PP
A command reads the image whole: one that asks takes about twice the image's size in memory, and one that changes it three times.
"#
);

const NAMES: &str = r#".SH NAMES
A name is 1 to 16 of A to Z, 0 to 9 and hyphen, a type 0 to 4 of them. A user is written
.B DOCK
and a file
.B DOCK/READS:DATA
or, without a type,
.BR DOCK/READS .
By index they are written
.BR @0 ", " @0/@3 " and " DOCK/@3 .
A word without @ is always a name, also if it has digits alone.
.PP
In an image a name has 16 bytes and a type 4. One that is shorter ends before the first apostrophe or zero byte, and whatever stands behind that
end is ignored: by the check, where names are compared, in listings and maps. A short name or type that is written gets one apostrophe
(hexadecimal 27) and then zeros, so the empty type is the words 2700 and 0000; one that has all 16 or 4 bytes gets none. Volumes whose names have
zeros alone behind them, as earlier versions wrote them, stay sound: a name is written where it is made, and all others stay as they are.
.PP
.B nord convert
changes what stands behind the short names and types of a whole volume, its own name and those of its users and files: from zeros alone to an
apostrophe and zeros, or back. There and back gives the same image. All of them have to be in the one fill before; else, as in a volume with both, in
one that was converted already or where something is left behind a name, it is refused with 12, names the first in the way and changes nothing. Entries
that are not used, and names and types that fill their 16 or 4 bytes, stay as they are.
.PP
The apostrophe is no part of a name. It is not shown, and a name or type that is given with one is refused with 2, in words that say so.
.B nord page
shows the bytes as they stand in the image, and beside a name what is left behind its end ("leftovers" in JSON).
"#;

const FILES: &str = r#".SH FILES
The new image is written to
.I .IMAGE.nord\-PROCESS
in the image's folder, synced, and renamed over the image; then the folder is synced. Owner and permissions are kept. What a killed run has left
is removed by the next one that changes the image. The image is locked (flock) while a command changes it; a second one waits. Long parts of zeros
become holes: the file has its whole length, and takes no room on the disk where there are only zeros.
.PP
There is no command that renames a file or copies one within an image: no call of the library changes a name or copies pages. A file is copied by
.B nord read
and
.BR "nord write" ,
or
.B nord export
and
.BR "nord import" ,
and it gets another name by a copy and
.BR "nord file delete" .
.PP
An image that is a symbolic link is replaced where the link leads to. Other names of the image file (hard links) keep the old image, as the new one is
another file: the command says on standard error how many there are.
.PP
A command that asks (check, list, find, address, who, page, map, read) takes
.B \-
for the image and reads standard input to its end; so it does with a pipe or a device at a path. A command that changes wants a file.
"#;

const UNSOUND: &str = r#".SH UNSOUND IMAGES
A rule is judged only where all lower ones hold. Refusal 3 tells the lowest broken rule and its first broken place, a page and a word 0 to 1,023 of it;
the library that is proved says which.
.B nord check
says what the words there are, what stands there and what was expected; with rule 8, which two hold the page. A number of two words, a pointer and
a name are one thing, whose place is their first word. An image that is sound with the two bytes of each word exchanged has the low byte first; the
check says so (in JSON "swapped": true), and how to convert it.
.PP
.B nord page
shows any page of any image. A line has the word's number, decimal and octal, its value, octal and decimal, its two bytes as characters, and what
it is to whoever holds the page; of words that are one thing the first says it. Who holds a page is found by following all pointers that lead to
pages 1 to P\-1; where several hold it, the first two are told. Runs of equal words that say nothing are folded as *. The word where the image is
broken begins with > and is followed by what was expected.
.PP
All other commands refuse an unsound image. With
.B \-\-unsound
.BR "nord list" ", " "nord map" ", " "nord read" " and " "nord who"
show what can be read of one, and each doubtful part is marked; they only read the image, and take no lock. On a sound image the answer is the same
with it and without. What is doubtful is judged for each entry and each page by itself, also where lower rules are broken: an image has a doubt
exactly when it is unsound. Of several doubts of one sort about one thing the first is told, and how many more there are.
.TP
.B nord list
begins with the lowest broken rule and its place. A line with something wrong in it begins with ? and ends in what that is: of a user by rules 4 and
10, of a file by rules 6, 7, 8 and 9, of the volume by all others, and of pages that nobody holds. Files whose owner is not used are listed under his
index. A kind that a pointer does not say is UNKNOWN.
.TP
.B nord map
shows each page by its first holder, but as 2 one that two hold, as ! one that is held and whose bit is clear, and as ? one whose bit is set and that
nobody holds; they have colours of their own, and the legend counts them.
.TP
.B nord who
tells the first two holders, whether there are more, and the page's bit. A holder is doubtful where he is not the only one, and where his entry or
his pointers are wrong.
.TP
.B nord read
takes the first used entry with that name, as the listing shows it, or the one with that index, and follows its pointers. A page that is not to be
found is written as zeros. What is doubtful is told on standard error, by positions in the file. A file with two shapes at once, with pages and no
pointer, or with as many pages as the image or more is refused with 3.
.PP
With
.B \-\-json
these answers have "sound", which is false, "rule", "page" and "word", the broken place, and "doubts" with each part: the volume, each of "users" and of
their "files"; in the map each of "holders"; for
.B nord who
"asked", the page, "holders", "more_holders" and "reserved" (null where the bit is not to be found); for
.B nord read
"positions", those with doubts ("from", "to").
.PP
.B nord rescue
copies out every file whose owner is used, whose entry and pointers are right (rules 6 and 7) and of whose pages nobody holds one too (rule 8); bits and
counts do not matter. A file goes to
.IR FOLDER/USER/NAME.TYPE ,
or
.I NAME
alone where the type is empty; of two files of a user with one name and type the lower one has it, and the other is left. The folder of a user whose name
is not legal, or that of a lower user, is his index as
.IR @7 .
Each file is written beside its place, synced and placed. One that is there with the same content is left as it is; where one has other content, nothing is
copied out. The files that are left are listed with the rule and the place of their first fault, and so are the places of rules 2, 3 and 5 that may hide
users or files. The exit status is 0 where that is done, also if some are left. With
.B \-\-json
the answer has "sound" (and of an unsound image "rule", "page" and "word"), "folder", "written" and "there" (how many files were written, and how many were
there already), "copied" and "left", both with "user", "file", "user_name" (or null), "name", "type" and "pages"; "copied" has also "path", and "left" has
"rule", "page", "word" and "fault", and all "doubts"; then "hidden", the places that may hide users or files.
"#;

const SALVAGE: &str = r#".SH SALVAGE
Where the power goes in the middle of work, a volume is left whose pointers are good and whose bits or counts are not. Rule 9 or 10 is broken then, or
rule 4 where it compares used with given, and
.B nord check
says whether a salvage can mend it: one is tried on a copy in memory. A salvage writes the bits of all pages anew from what the pointers hold, the used
counts of all users from what their files hold, and unreserved from the sum. It changes no other word, and a second one changes nothing. Pointers, names
and files' entries are left alone: an image that breaks a rule there is refused with 3, as by every command. Where a user holds more than he was
given, or where more is given than there is, it is refused with 13, and says who and by how much.
.PP
A page that is reserved and that no file and nothing else holds becomes free. Its words stay until a file takes it, and they may be somebody's reads: one
that a pointer led to before another pointer was laid over it.
.B \-\-orphans
copies each such page to a file
.I page\-NUMBER.bin
of 2,048 bytes, the high byte of each word first, before the image is replaced. Where one of these files is there with other content, nothing is written and
the image stays as it was. With
.B \-\-dry\-run
the pages are copied out and nothing is mended.
"#;

const STATUS: &str = concat!(
    r#".SH EXIT STATUS
.TP
0
Done.
.TP
1
The length is no whole number of pages, or there are fewer than 8 or more than "#,
    most_pages!(),
    r#".
.TP
2
An argument is wrong.
.TP
3
The image is unsound.
.TP
4
The named user, file or page position does not exist.
.TP
5
The name is taken.
.TP
6
Wrong kind: grow or shrink of a contiguous file, shrink of an empty one.
.TP
7
The user has a file.
.TP
8
All 256 entries are used.
.TP
9
Given less used is below the pages needed, or below the pages to be taken back.
.TP
10
Unreserved is below the system pages needed, or the pages to be given.
.TP
11
There is no run for a contiguous file.
.TP
12
A short name or type is not in exactly the fill that is converted. This is judged right after 3.
.TP
13
Salvage: a user holds more than he was given, or unreserved would be below zero. This is judged right after 3.
.TP
14
Salvage: the list is too short for the words that change. The command lends one that is long enough for any volume.
.TP
64
The command was not used as its help says.
.TP
74
Input or output failed: a file is not there or not readable, a disk is full. The image is as it was, unless the words say that the work is done.
.TP
75
Another writer has the image, or another program has changed it meanwhile.
"#
);
