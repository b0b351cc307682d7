//! Names and types as they stand in an image: two bytes to a word, the high byte first. One that is shorter than its field ends before the first
//! apostrophe or zero byte. What stands behind that end is no part of it, and no rule and no comparison looks at it.

use std::fmt;

/// What stands behind a name that is shorter than its field.
#[derive(Clone, Copy, Debug, PartialEq, Eq)]
pub enum Fill {
    /// Zeros alone, as in old volumes.
    Zeros,
    /// One apostrophe, then zeros, as names are written now.
    Apostrophe,
    /// An apostrophe or a zero byte, and then not zeros alone.
    Leftovers,
}

/// The words of a name or a type, cut where it ends.
#[derive(Clone, Debug)]
pub struct Stored {
    bytes: Vec<u8>,
    /// How many of the bytes are the name.
    length: usize,
}

impl Stored {
    /// The name in the words of a field, however many they are.
    pub fn of(words: &[u16]) -> Stored {
        let bytes: Vec<u8> = words.iter().flat_map(|word| word.to_be_bytes()).collect();
        let length = bytes.iter().position(|byte| ends(*byte)).unwrap_or(bytes.len());
        Stored { bytes, length }
    }

    /// The name itself: the bytes before the end, or all where there is none.
    pub fn name(&self) -> &[u8] {
        &self.bytes[..self.length]
    }

    /// The bytes behind the name, from the one that ends it on; none where the name fills its field.
    pub fn behind(&self) -> &[u8] {
        &self.bytes[self.length..]
    }

    /// What these bytes are; none where the name fills its field.
    pub fn fill(&self) -> Option<Fill> {
        let end = self.behind().first()?;
        Some(match self.leftovers() {
            Some(_) => Fill::Leftovers,
            None if *end == 0 => Fill::Zeros,
            None => Fill::Apostrophe,
        })
    }

    /// Whether the name has so many bytes or more, all of them A-Z, 0-9 or hyphen: 1 for a name, 0 for a type.
    pub fn is_legal(&self, least: usize) -> bool {
        let allowed = |byte: &u8| byte.is_ascii_uppercase() || byte.is_ascii_digit() || *byte == b'-';
        self.length >= least && self.name().iter().all(allowed)
    }

    /// The bytes behind the end, as far as they are not zeros alone; a point stands for what cannot be shown.
    pub fn leftovers(&self) -> Option<String> {
        let behind = self.bytes.get(self.length + 1..)?;
        let last = behind.iter().rposition(|byte| *byte != 0)?;
        Some(behind[..=last].iter().map(|byte| character(*byte)).collect())
    }
}

impl PartialEq for Stored {
    /// Whether the names are the same, whatever ends them and stands behind.
    fn eq(&self, other: &Stored) -> bool {
        self.name() == other.name()
    }
}

impl fmt::Display for Stored {
    /// The name; a question mark stands for what cannot be shown.
    fn fmt(&self, out: &mut fmt::Formatter) -> fmt::Result {
        let shown = |byte: &u8| if byte.is_ascii_graphic() { char::from(*byte) } else { '?' };
        out.write_str(&self.name().iter().map(shown).collect::<String>())
    }
}

/// Whether a byte ends a name that does not fill its field.
fn ends(byte: u8) -> bool {
    matches!(byte, b'\'' | 0)
}

/// A byte as a character; a point stands for what cannot be shown.
pub fn character(byte: u8) -> char {
    match byte {
        b' '..=b'~' => char::from(byte),
        _ => '.',
    }
}

#[cfg(test)]
mod tests {
    use super::{Fill, Stored};

    /// The field with these bytes.
    fn stored(bytes: &[u8]) -> Stored {
        let words: Vec<u16> = bytes.chunks(2).map(|pair| u16::from_be_bytes([pair[0], pair[1]])).collect();
        Stored::of(&words)
    }

    /// What a field says: its name, whether that is a legal name and a legal type, what is left behind it.
    fn says(bytes: &[u8]) -> (String, bool, bool, Option<String>) {
        let stored = stored(bytes);
        (stored.to_string(), stored.is_legal(1), stored.is_legal(0), stored.leftovers())
    }

    fn is(bytes: &[u8], name: &str, legal: (bool, bool), leftovers: Option<&str>) {
        let wanted = (name.to_string(), legal.0, legal.1, leftovers.map(str::to_string));
        assert_eq!(says(bytes), wanted, "{bytes:?}");
    }

    #[test]
    fn a_name_ends_before_the_first_apostrophe_or_zero_byte() {
        is(b"DOCK'\0\0\0", "DOCK", (true, true), None);
        is(b"DOCK\0\0\0\0", "DOCK", (true, true), None);
        is(b"DOCK'S O", "DOCK", (true, true), Some("S O"));
        is(b"DOCK\0old", "DOCK", (true, true), Some("old"));
        is(b"DO'K'\0'\0", "DO", (true, true), Some("K'.'"));
        is(b"DOCKING'", "DOCKING", (true, true), None);
        is(b"DOCKINGS", "DOCKINGS", (true, true), None);
    }

    #[test]
    fn an_empty_field_is_a_type_and_no_name() {
        is(b"'\0\0\0", "", (false, true), None);
        is(b"\0\0\0\0", "", (false, true), None);
        is(b"'ATA", "", (false, true), Some("ATA"));
        is(b"", "", (false, true), None);
    }

    #[test]
    fn what_stands_before_the_end_is_judged_alone() {
        is(b"DOCk'\0", "DOCk", (false, false), None);
        is(b"DO K\0\xff", "DO?K", (false, false), Some("."));
        is(b"\x01OCK", "?OCK", (false, false), None);
    }

    #[test]
    fn what_stands_behind_a_short_name_is_one_of_three() {
        for (bytes, fill) in [
            (b"DOCK\0\0\0\0", Some(Fill::Zeros)),
            (b"DOCK'\0\0\0", Some(Fill::Apostrophe)),
            (b"DOCK''\0\0", Some(Fill::Leftovers)),
            (b"DOCK\0'\0\0", Some(Fill::Leftovers)),
            (b"DOCK\0\0\0D", Some(Fill::Leftovers)),
            (b"DOCKING\0", Some(Fill::Zeros)),
            (b"DOCKING'", Some(Fill::Apostrophe)),
            (b"DOCKINGS", None),
        ] {
            assert_eq!(stored(bytes).fill(), fill, "{bytes:?}");
        }
        assert_eq!(
            (stored(b"\0\0\0\0").fill(), stored(b"'\0\0\0").fill()),
            (Some(Fill::Zeros), Some(Fill::Apostrophe))
        );
        assert_eq!((stored(b"DOCK's \0").behind(), stored(b"DATA").behind()), (&b"'s \0"[..], &b""[..]));
    }

    #[test]
    fn names_are_compared_without_what_is_behind_them() {
        for other in [b"DOCK\0\0\0\0", b"DOCK'S O", b"DOCK\0S O"] {
            assert_eq!(stored(b"DOCK'\0\0\0"), stored(other));
        }
        assert_ne!(stored(b"DOCK'\0\0\0"), stored(b"DOC'K\0\0\0"));
    }
}
