//! Names in groups, as lines that can be read.

use std::collections::BTreeMap;

/// The widest line.
const WIDTH: usize = 140;

/// Names by the group they stand in.
pub type Groups = BTreeMap<String, Vec<String>>;

pub fn groups(pairs: impl IntoIterator<Item = (String, String)>) -> Groups {
    let mut groups = Groups::new();
    pairs
        .into_iter()
        .for_each(|(group, name)| groups.entry(group).or_default().push(name));
    groups
}

/// Each group with its names.
pub fn in_full(groups: &Groups) -> String {
    let one = |(group, names): (&String, &Vec<String>)| format!("{group}: {}", names.join(", "));
    groups.iter().map(one).collect::<Vec<_>>().join("; ")
}

/// Each group with the number of its names.
pub fn counted(groups: &Groups) -> String {
    let one = |(group, names): (&String, &Vec<String>)| format!("{group} {}", names.len());
    groups.iter().map(one).collect::<Vec<_>>().join(", ")
}

/// A whole number with commas.
pub fn grouped(number: usize) -> String {
    let digits = number.to_string();
    let first = (digits.len() + 2) % 3 + 1;
    let rest = (first..digits.len()).step_by(3).map(|at| &digits[at..at + 3]);
    [&digits[..first]].into_iter().chain(rest).collect::<Vec<_>>().join(",")
}

/// The first words of a long text.
pub fn cut(text: &str, most: usize) -> String {
    let mut short = String::new();
    for word in text.split(' ') {
        if short.chars().count() + word.chars().count() > most {
            return short.trim_end().to_string() + " ..";
        }
        short += word;
        short.push(' ');
    }
    short.trim_end().to_string()
}

/// An item of a list, over as many lines as it needs.
pub fn bullet(text: &str) -> String {
    let mut lines = vec![String::from("-")];
    for word in text.split(' ') {
        let last = lines.last_mut().unwrap();
        if last.chars().count() + 1 + word.chars().count() > WIDTH {
            lines.push(format!("  {word}"));
        } else {
            *last += &format!(" {word}");
        }
    }
    lines.join("\n") + "\n"
}

#[cfg(test)]
mod tests {
    use super::*;

    #[test]
    fn groups_in_both_forms() {
        let pairs = [("B", "x"), ("A", "y"), ("B", "z")];
        let groups = groups(pairs.map(|(group, name)| (group.to_string(), name.to_string())));
        assert_eq!(in_full(&groups), "A: y; B: x, z");
        assert_eq!(counted(&groups), "A 1, B 2");
    }

    #[test]
    fn numbers_are_grouped_by_three() {
        assert_eq!(
            [7, 16, 154, 1_000, 16_384, 1_234_567].map(grouped),
            ["7", "16", "154", "1,000", "16,384", "1,234,567"]
        );
    }

    #[test]
    fn long_texts() {
        assert_eq!(cut("one two three", 8), "one two ..");
        assert_eq!(cut("one two", 8), "one two");
        let lines = bullet(&"word ".repeat(60));
        assert!(lines.lines().count() > 1 && lines.lines().all(|line| line.len() <= WIDTH));
    }
}
