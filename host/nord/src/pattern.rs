//! Files of a user by a pattern: `*` stands for any letters, `?` for one.

/// A pattern of a name, and one of a type where there is a colon.
pub struct Pattern {
    name: String,
    kind: Option<String>,
}

impl Pattern {
    pub fn of(text: &str) -> Pattern {
        match text.split_once(':') {
            Some((name, kind)) => Pattern {
                name: name.to_string(),
                kind: Some(kind.to_string()),
            },
            None => Pattern {
                name: text.to_string(),
                kind: None,
            },
        }
    }

    pub fn matches(&self, name: &str, kind: &str) -> bool {
        let kinds = self.kind.as_ref();
        like(self.name.as_bytes(), name.as_bytes()) && kinds.is_none_or(|pattern| like(pattern.as_bytes(), kind.as_bytes()))
    }
}

/// Whether a text is like a pattern. Where a letter does not fit, the last star takes one letter more, so this ends after as many steps as there
/// are letters in the two together, multiplied.
fn like(pattern: &[u8], text: &[u8]) -> bool {
    let (mut at, mut from, mut star) = (0, 0, None);
    while from < text.len() {
        match pattern.get(at) {
            Some(b'*') => {
                star = Some((at, from));
                at += 1;
            }
            Some(letter) if *letter == b'?' || *letter == text[from] => {
                at += 1;
                from += 1;
            }
            _ => {
                let Some((before, taken)) = star else { return false };
                star = Some((before, taken + 1));
                at = before + 1;
                from = taken + 1;
            }
        }
    }
    pattern[at..].iter().all(|letter| *letter == b'*')
}

#[cfg(test)]
mod tests {
    use super::Pattern;

    #[test]
    fn patterns() {
        let is = |pattern: &str, name: &str, kind: &str| Pattern::of(pattern).matches(name, kind);
        assert!(is("*", "READS", "DATA") && is("*", "READS", ""));
        assert!(is("READS", "READS", "DATA") && is("READS:", "READS", ""));
        assert!(!is("READS:", "READS", "DATA") && !is("READ", "READS", "DATA"));
        assert!(is("R*S:D?TA", "READS", "DATA") && is("R*S:*", "RS", ""));
        assert!(!is("R?S", "READS", "DATA") && !is("*:TEXT", "READS", "DATA"));
    }

    #[test]
    fn many_stars_take_no_time() {
        assert!(!Pattern::of(&format!("{}B", "*A".repeat(40))).matches(&"A".repeat(1000), ""));
    }
}
