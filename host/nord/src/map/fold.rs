//! Text in lines of a width.

/// The parts in lines of at most so many characters. A part is kept together where it fits into a line, and parted at its blanks else.
pub fn folded<'a>(parts: impl IntoIterator<Item = &'a str>, width: usize) -> Vec<String> {
    let mut lines: Vec<String> = Vec::new();
    for part in parts.into_iter().flat_map(|part| pieces(part, width)) {
        match lines.last_mut() {
            Some(line) if line.chars().count() + 1 + part.chars().count() <= width => {
                line.push(' ');
                line.push_str(part);
            }
            _ => lines.push(part.to_string()),
        }
    }
    lines
}

fn pieces(part: &str, width: usize) -> Vec<&str> {
    match part.chars().count() <= width {
        true => vec![part],
        false => part.split(' ').collect(),
    }
}

#[cfg(test)]
mod tests {
    use super::folded;

    #[test]
    fn parts_stay_together_where_they_fit() {
        let parts = ["YARD: 154 pages,", "134 free,", "20 reserved"];
        assert_eq!(folded(parts, 80), ["YARD: 154 pages, 134 free, 20 reserved"]);
        assert_eq!(folded(parts, 26), ["YARD: 154 pages, 134 free,", "20 reserved"]);
        assert_eq!(folded(parts, 25), ["YARD: 154 pages,", "134 free, 20 reserved"]);
        assert_eq!(folded(parts, 11), ["YARD: 154", "pages,", "134 free,", "20 reserved"]);
    }
}
