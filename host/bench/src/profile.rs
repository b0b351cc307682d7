//! Where the instructions of the library's check go, function by function, by callgrind.

use crate::calls::{Call, Program};
use crate::children::COPIES;
use std::collections::BTreeMap;
use std::io;
use std::path::Path;
use std::process::Command;

/// A function of the library, and its own instructions in one check.
pub type Share = (String, u64);

/// A line of callgrind_annotate: the count, and the function if it is the library's. The library tells no source files, and its functions
/// are named by crate and module; a function met inside itself has a mark behind its name.
fn own(line: &str) -> Option<(&str, u64)> {
    let (count, rest) = line.trim().split_once(' ')?;
    let count = count.replace(',', "").parse().ok()?;
    let name = rest.split_once("???:")?.1.split(" [").next()?;
    let name = name.split('\'').next()?;
    name.contains("::").then_some((name, count))
}

/// Adds up what each function has.
fn shares(text: &str) -> Vec<Share> {
    let mut sums: BTreeMap<&str, u64> = BTreeMap::new();
    for (name, count) in text.lines().filter_map(own) {
        *sums.entry(name).or_default() += count;
    }
    let mut shares: Vec<Share> = sums
        .into_iter()
        .map(|(name, count)| (name.to_string(), count / COPIES as u64))
        .collect();
    shares.sort_by_key(|share| std::cmp::Reverse(share.1));
    shares
}

/// The library's functions in a check of this image, the costliest first.
pub fn of_check(image: &Path) -> io::Result<Vec<Share>> {
    let file = image.with_extension("callgrind");
    let mut command = Command::new("valgrind");
    command
        .arg("--tool=callgrind")
        .arg(format!("--callgrind-out-file={}", file.display()))
        .arg(std::env::current_exe()?);
    command
        .args(["once", Call::Check.name()])
        .arg(image)
        .args([Program::Proved.name(), &COPIES.to_string()])
        .output()?;
    let output = Command::new("callgrind_annotate").arg("--threshold=100").arg(&file).output()?;
    Ok(shares(&String::from_utf8_lossy(&output.stdout)))
}

#[cfg(test)]
mod tests {
    use super::*;

    #[test]
    fn only_the_librarys_functions_are_added_up() {
        let text = "1,100 (50.0%)  ???:walk::pages::mark_pointer'2 [/bench]\n 2,200 (1.0%)  ???:sound::gate [/bench]\n\
            110 (5.0%)  ???:walk::pages::mark_pointer [/bench]\n 9 (1%)  ./elf/dl.c:do_lookup_x'2 [/lib]\n";
        assert_eq!(
            shares(text),
            vec![("sound::gate".to_string(), 200), ("walk::pages::mark_pointer".to_string(), 110)]
        );
    }
}
