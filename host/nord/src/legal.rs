//! Host's file names made legal for a NORD volume, and back. The rule is the one that the help of import says.

use crate::names::is_letter;
use std::collections::HashSet;
use std::path::Path;

/// Letters of a name, and of a type.
const NAME: usize = 16;
const TYPE: usize = 4;

/// A file's name and type on a volume.
pub type Names = (String, String);

/// The names that files of one import have got.
#[derive(Default)]
pub struct Given(HashSet<Names>);

impl Given {
    /// The name and type that a host's file gets: one that no file before it has got.
    pub fn to(&mut self, path: &Path) -> Names {
        let (name, kind) = legal(path);
        let numbered = |number: u32| match number {
            1 => name.clone(),
            _ => {
                let end = format!("-{number}");
                format!("{}{end}", &name[..name.len().min(NAME - end.len())])
            }
        };
        let free = (1..)
            .map(|number| (numbered(number), kind.clone()))
            .find(|names| !self.0.contains(names));
        let names = free.unwrap_or((name.clone(), kind.clone()));
        self.0.insert(names.clone());
        names
    }
}

/// The name and type by the rule alone.
fn legal(path: &Path) -> Names {
    let file = path.file_name().unwrap_or_default().to_string_lossy();
    let (name, kind) = match file.rfind('.') {
        None | Some(0) => (&file[..], ""),
        Some(point) => (&file[..point], &file[point + 1..]),
    };
    (letters(name, NAME), letters(kind, TYPE))
}

/// Capitals, digits and hyphens, no more than so many.
fn letters(text: &str, most: usize) -> String {
    let letter = |letter: char| match u8::try_from(letter.to_ascii_uppercase()) {
        Ok(byte) if is_letter(byte) => byte as char,
        _ => '-',
    };
    text.chars().take(most).map(letter).collect()
}

/// The host's name of a file: NAME.TYPE, or NAME where it has no type.
pub fn host_name(name: &str, kind: &str) -> String {
    match kind {
        "" => name.to_string(),
        _ => format!("{name}.{kind}"),
    }
}

#[cfg(test)]
mod tests {
    use super::{host_name, Given};
    use crate::names::is_legal;
    use std::path::Path;

    #[test]
    fn names_are_made_legal_and_kept_apart() {
        let mut given = Given::default();
        let mut to = |path: &str| {
            let (name, kind) = given.to(Path::new(path));
            assert!(is_legal(&name) && kind.len() <= 4, "{path}");
            format!("{name}:{kind}")
        };
        assert_eq!(to("in/notes.txt"), "NOTES:TXT");
        assert_eq!(to("READS.DATA"), "READS:DATA");
        assert_eq!(to("long name of a file.backup"), "LONG-NAME-OF-A-F:BACK");
        assert_eq!(to("other/Notes.TXT"), "NOTES-2:TXT");
        assert_eq!(to("long name of a few.backup"), "LONG-NAME-OF-A-2:BACK");
        assert_eq!(to(".profile"), "-PROFILE:");
        assert_eq!(to("a.tar.gz"), "A-TAR:GZ");
        assert_eq!(to("Schaf-Größe.txt"), "SCHAF-GR--E:TXT");
        assert_eq!(to("end."), "END:");
        (3..=20).for_each(|number| assert_eq!(to("NOTES.TXT"), format!("NOTES-{number}:TXT")));
    }

    #[test]
    fn a_files_name_on_the_host() {
        assert_eq!(host_name("READS", "DATA"), "READS.DATA");
        assert_eq!(host_name("READS", ""), "READS");
    }
}
