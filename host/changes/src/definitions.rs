//! The definitions of a file of the book: each with its name and its text, comments and white space aside.
//!
//! A line at the depth of its block begins a declaration, or goes on with the one before it (a clause, `unfolding`, a closing brace); a
//! deeper line goes on. What stands under `module _ (..) where` has that head in its text, since it says what the definition is over.

/// Words in front of a name.
const MARKS: [&str; 4] = ["unfoldable", "abbrev", "axiom", "pub"];
const SORTS: [&str; 3] = ["data", "record", "ruleset"];

/// Lines that declare nothing of their own.
const OTHERS: [&str; 6] = ["use", "mod", "infix", "infixl", "infixr", "open"];

/// Heads of blocks.
const BLOCKS: [&str; 2] = ["module", "mutual"];

#[derive(Clone, Debug, PartialEq, Eq)]
pub struct Definition {
    pub name: String,
    pub public: bool,
    pub text: String,
}

/// A block: its head, and the depth of its lines once the first was met.
struct Block {
    head: String,
    depth: Option<usize>,
}

/// What the lines so far have declared.
struct Reader {
    blocks: Vec<Block>,
    found: Vec<Definition>,
    /// The last definition may go on.
    open: bool,
    /// The head of the last block may go on.
    heading: bool,
}

/// A line without its comment. Two hyphens begin one where a word could begin, outside of quotes.
fn code(line: &str) -> &str {
    let begins = |at: usize| (at == 0 || line[..at].ends_with(' ')) && line[..at].matches('"').count().is_multiple_of(2);
    let comment = line.match_indices("--").map(|(at, _)| at).find(|&at| begins(at));
    line[..comment.unwrap_or(line.len())].trim_end()
}

/// The name that a line declares, and whether it is `pub`.
fn declared(line: &str) -> Option<(String, bool)> {
    let words: Vec<&str> = line.split_whitespace().collect();
    let marks = words.iter().take_while(|word| MARKS.contains(word)).count();
    let sort = usize::from(words.get(marks).is_some_and(|word| SORTS.contains(word)));
    let name = words.get(marks + sort)?;
    let is_one = marks + sort > 0 || words.get(1) == Some(&":");
    is_one.then(|| (name.to_string(), words[..marks].contains(&"pub")))
}

fn squeezed(text: &str) -> String {
    text.split_whitespace().collect::<Vec<_>>().join(" ")
}

impl Reader {
    /// Leaves the blocks that a line of this depth is outside of; tells the depth of the block that it is in.
    fn leave(&mut self, depth: usize) -> usize {
        while self.blocks.len() > 1 && self.blocks.last().and_then(|block| block.depth).is_some_and(|inner| depth < inner) {
            self.blocks.pop();
            self.open = false;
        }
        let innermost = self.blocks.last_mut().unwrap();
        *innermost.depth.get_or_insert(depth)
    }

    fn line(&mut self, line: &str) {
        let depth = line.len() - line.trim_start().len();
        if self.heading {
            self.go_on_with_head(line);
        } else if depth > self.leave(depth) {
            self.go_on(line);
        } else {
            self.begin(line);
        }
    }

    fn go_on_with_head(&mut self, line: &str) {
        let head = &mut self.blocks.last_mut().unwrap().head;
        *head = squeezed(&format!("{head} {line}"));
        self.heading = !head.ends_with("where");
    }

    fn go_on(&mut self, line: &str) {
        if let Some(last) = self.found.last_mut().filter(|_| self.open) {
            last.text = format!("{} {}", last.text, squeezed(line));
        }
    }

    fn begin(&mut self, line: &str) {
        let words: Vec<&str> = line.split_whitespace().collect();
        let first = words.iter().find(|word| !MARKS.contains(word)).copied().unwrap_or_default();
        if BLOCKS.contains(&first) {
            self.blocks.push(Block {
                head: squeezed(line),
                depth: None,
            });
            self.open = false;
            self.heading = first == "module" && !line.ends_with("where");
        } else if OTHERS.contains(&first) {
            self.open = false;
        } else if let Some((name, public)) = declared(line) {
            let heads = self.blocks.iter().map(|block| block.head.as_str());
            let text = heads.chain([line]).map(squeezed).collect::<Vec<_>>().join(" ");
            let text = text.trim_start().to_string();
            self.found.push(Definition { name, public, text });
            self.open = true;
        } else {
            self.go_on(line);
        }
    }
}

/// All definitions of a file, in their order.
pub fn of(text: &str) -> Vec<Definition> {
    let file = Block {
        head: String::new(),
        depth: Some(0),
    };
    let mut reader = Reader {
        blocks: vec![file],
        found: Vec::new(),
        open: false,
        heading: false,
    };
    text.lines()
        .map(code)
        .filter(|line| !line.is_empty())
        .for_each(|line| reader.line(line));
    reader.found
}

#[cfg(test)]
mod tests {
    use super::*;

    const FILE: &str = "-- A file.
use lib.{ℕ}
pub mod Kid

-- a table
pub data Rows : Type 1 where
  end : Rows
  row : ℕ → Rows -- one more

unfoldable pub Applies : Rows → ℕ
unfolding Rows
Applies end = record {
  x = 1;
}
Applies (row n) = n

help : ℕ
help = 1

module _ (P : ℕ)
    (v : ℕ) where
  pub inner : ℕ
  inner = go 1
    where
      go : ℕ → ℕ
      go x = x

  module _ (a : ℕ) where
    abbrev pub deep : ℕ
    deep = a

  pub back : ℕ
  back = P

pub last : ℕ
last = 2
";

    #[test]
    fn names_and_what_is_public() {
        let names: Vec<(String, bool)> = of(FILE).into_iter().map(|one| (one.name, one.public)).collect();
        let expected = [
            ("Rows", true),
            ("Applies", true),
            ("help", false),
            ("inner", true),
            ("deep", true),
            ("back", true),
            ("last", true),
        ];
        assert_eq!(names, expected.map(|(name, public)| (name.to_string(), public)));
    }

    #[test]
    fn texts_have_their_clauses_and_their_blocks() {
        let text = |name: &str| of(FILE).into_iter().find(|one| one.name == name).unwrap().text;
        assert_eq!(text("Rows"), "pub data Rows : Type 1 where end : Rows row : ℕ → Rows");
        assert_eq!(
            text("Applies"),
            "unfoldable pub Applies : Rows → ℕ unfolding Rows Applies end = record { x = 1; } Applies (row n) = n"
        );
        let head = "module _ (P : ℕ) (v : ℕ) where";
        assert_eq!(
            text("inner"),
            format!("{head} pub inner : ℕ inner = go 1 where go : ℕ → ℕ go x = x")
        );
        assert_eq!(text("deep"), format!("{head} module _ (a : ℕ) where abbrev pub deep : ℕ deep = a"));
        assert_eq!(text("back"), format!("{head} pub back : ℕ back = P"));
        assert_eq!(text("last"), "pub last : ℕ last = 2");
    }

    #[test]
    fn comments_begin_at_words() {
        assert_eq!(code("a--b = \" -- \" -- c"), "a--b = \" -- \"");
        assert_eq!(code("-- ---- laws"), "");
    }
}
