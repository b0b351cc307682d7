//! A small repository made up for the purpose: what moves in it is told, and nothing is written into it.

use std::fs;
use std::path::{Path, PathBuf};
use std::process::{Command, Output};

/// A repository that goes away with the test.
struct Repository {
    folder: PathBuf,
}

impl Drop for Repository {
    fn drop(&mut self) {
        let _ = fs::remove_dir_all(&self.folder);
    }
}

fn git(folder: &Path, arguments: &[&str]) -> String {
    let mut command = Command::new("git");
    command.current_dir(folder).args(arguments);
    for who in ["AUTHOR", "COMMITTER"] {
        command
            .env(format!("GIT_{who}_NAME"), "Nobody")
            .env(format!("GIT_{who}_EMAIL"), "nobody@nowhere");
    }
    let output = command.env("GIT_CONFIG_GLOBAL", "/dev/null").output().unwrap();
    assert!(
        output.status.success(),
        "git {arguments:?}: {}",
        String::from_utf8_lossy(&output.stderr)
    );
    String::from_utf8_lossy(&output.stdout).trim_end().to_string()
}

impl Repository {
    fn new(name: &str) -> Repository {
        let folder = std::env::temp_dir().join(format!("made-up-{name}-{}", std::process::id()));
        fs::create_dir_all(&folder).unwrap();
        git(&folder, &["init", "--quiet", "."]);
        Repository { folder }
    }

    fn write(&self, path: &str, text: &str) {
        let path = self.folder.join(path);
        fs::create_dir_all(path.parent().unwrap()).unwrap();
        fs::write(path, text).unwrap();
    }

    fn commit(&self, subject: &str) -> String {
        git(&self.folder, &["add", "--all"]);
        git(&self.folder, &["commit", "--quiet", "--message", subject]);
        git(&self.folder, &["rev-parse", "HEAD"])
    }

    fn changes(&self, arguments: &[&str]) -> Output {
        let program = env!("CARGO_BIN_EXE_changes");
        Command::new(program).current_dir(&self.folder).args(arguments).output().unwrap()
    }

    fn page(&self, base: &str) -> String {
        let output = self.changes(&[base]);
        assert!(output.status.success(), "{}", String::from_utf8_lossy(&output.stderr));
        String::from_utf8(output.stdout).unwrap()
    }
}

const RULES: &str = "-- Rules.
use lib.{ℕ}

-- as it was
pub stays : ℕ
stays = 1

pub changes : ℕ
changes = 1

pub moves : ℕ
moves = 1

pub goes : ℕ
goes = 1

help : ℕ
help = 1
";

const RULES_AFTER: &str = "-- Rules, said better.
use lib.{ℕ, more}

pub stays : ℕ -- as it was, but for white space
stays =
    1

pub changes : ℕ
changes = 2

help : ℕ
help = 2
";

const STEPS_AFTER: &str = "pub moves : ℕ\nmoves = 1\n\npub comes : ℕ\ncomes = 1\n";

const HEADS: &str = "| promise | theorem |\n|---|---|\n";

fn proof(of: &str) -> String {
    let lines: Vec<String> = (1..=9).map(|n| format!("{of}-{n} : line {n}")).collect();
    lines.join("\n") + "\n"
}

/// The repository before a landing, and the commit.
fn before(name: &str) -> (Repository, String) {
    let made = Repository::new(name);
    made.write("crates/book/specs/Rules.antt", RULES);
    let rows = "| It stays | `A.stays` |\n| It changes | `A.changes` |\n| It moves | `A.moves` |\n| It goes | `A.goes` |\n";
    made.write("docs/PROMISES.md", &format!("# Promises\n\n## One: first\n\n{HEADS}{rows}"));
    made.write("crates/laws/specs/Stays.antt", &proof("stays"));
    made.write("crates/laws/specs/Uses.antt", &format!("use laws.Moves\n{}", proof("uses")));
    made.write("crates/laws/specs/Moves.antt", &proof("moves"));
    made.write("crates/laws/specs/Bends.antt", &proof("bends"));
    made.write("crates/nord/proofs/ask/goes/Proof.antt", &proof("goes"));
    made.write("crates/nord/src/lib.rt", "fn nothing() {}\n");
    let base = made.commit("Before");
    (made, base)
}

/// The landing, as changes that are not committed.
fn land(made: &Repository) {
    made.write("crates/book/specs/Rules.antt", RULES_AFTER);
    made.write("crates/book/specs/Steps.antt", STEPS_AFTER);
    let one = "| It stays | `A.stays` |\n| It changes | `B.changes` |\n| It comes | `A.comes` |\n";
    let two = "| It moves | `A.moves` |\n";
    made.write(
        "docs/PROMISES.md",
        &format!("# Promises\n\n## One: first\n\n{HEADS}{one}\n## Two: second\n\n{HEADS}{two}"),
    );
    fs::create_dir_all(made.folder.join("crates/laws/specs/Tree")).unwrap();
    let rename = |old: &str, new: &str| fs::rename(made.folder.join(old), made.folder.join(new)).unwrap();
    rename("crates/laws/specs/Moves.antt", "crates/laws/specs/Tree/Moves.antt");
    made.write("crates/laws/specs/Uses.antt", &format!("use laws.Tree.Moves\n{}", proof("uses")));
    fs::remove_file(made.folder.join("crates/laws/specs/Bends.antt")).unwrap();
    made.write("crates/laws/specs/Tree/Bent.antt", &(proof("bends") + "one line more\n"));
    fs::remove_dir_all(made.folder.join("crates/nord/proofs/ask")).unwrap();
    made.write("crates/nord/proofs/open/comes/Proof.antt", &"comes\n".repeat(3));
    made.write("crates/nord/src/lib.rt", "fn something() {}\n");
}

fn has(page: &str, line: &str) {
    assert!(page.lines().any(|one| one == line), "no line\n{line}\nin\n{page}");
}

#[test]
fn what_came_went_moved_changed_and_stayed_is_told() {
    let (made, base) = before("told");
    land(&made);
    let page = made.page(&base);
    has(
        &page,
        "| definitions of the book, `pub` | 4 | 4 | 1 | 1 | 1 | 0 | 1 | 1 | 18 | 17 | 12 | 13 |",
    );
    has(&page, "| its private definitions | 1 | 1 | 0 | 1 | 0 | 0 | 0 | 0 |  |  |  |  |");
    has(
        &page,
        "| rows of docs/PROMISES.md | 4 | 4 | 1 | 1 | 1 | 0 | 1 | 1 | 10 | 15 | 7 | 2 |",
    );
    has(&page, "- moved (1): `Rules` to `Steps`: moves");
    has(&page, "- came (1): `Steps`: comes");
    has(&page, "- went (1): `Rules`: goes");
    has(&page, "- changed: One: It changes (theorem)");
    has(&page, "- moved: Two: It moves (from One)");
    has(&page, "- came: One: It comes");
    has(&page, "- went: One: It goes");
}

#[test]
fn proof_files_are_summed_and_followed() {
    let (made, base) = before("files");
    land(&made);
    let page = made.page(&base);
    has(&page, "| laws/specs | 4 | 4 | 1 | 1 | 1 | 1 | 0 | 0 | 37 | 38 | 2 | 1 | 16 | 19 |");
    has(&page, "| nord/proofs | 1 | 1 | 0 | 0 | 0 | 0 | 1 | 1 | 9 | 3 | 3 | 9 | 15 | 5 |");
    has(&page, "- moved (1): `laws/specs` to `laws/specs/Tree`: Moves");
    has(&page, "- moved and changed (1): `laws/specs` to `laws/specs/Tree`: Bends as Bent");
    has(&page, "- came (2): `book/specs`: Steps; `nord/proofs/open`: comes");
    has(&page, "- went (1): `nord/proofs/ask`: goes");
    has(
        &page,
        "- changed (2, 1 of them in `use` lines alone): `book/specs`: Rules; `laws/specs`: Uses",
    );
    assert!(page.contains(", with changes that are not committed."), "{page}");
}

#[test]
fn a_landing_that_is_committed_is_told_the_same() {
    let (made, base) = before("committed");
    land(&made);
    let open = made.page(&base);
    let state = git(&made.folder, &["status", "--porcelain"]);
    assert!(
        state.contains("?? crates/book/specs/Steps.antt"),
        "nothing is added to the index: {state}"
    );
    made.commit("After");
    let rest = |page: &str| page.lines().skip(3).map(str::to_string).collect::<Vec<_>>();
    let committed = made.page(&base);
    assert_eq!(rest(&open), rest(&committed));
    assert!(!committed.contains("not committed"), "{committed}");
}

#[test]
fn nothing_changed_and_no_commit_are_told() {
    let (made, base) = before("same");
    let page = made.page(&base);
    has(&page, "| proof files | 6 | 6 | 6 | 0 | 0 | 0 | 0 | 0 | 64 | 64 | 0 | 0 |");
    has(
        &page,
        "| 3 others, as they were | 6 | 6 | 6 | 0 | 0 | 0 | 0 | 0 | 64 | 64 | 0 | 0 | 16 | 16 |",
    );
    let refused = |arguments: &[&str]| {
        let output = made.changes(arguments);
        assert!(!output.status.success());
        String::from_utf8_lossy(&output.stderr).into_owned()
    };
    assert_eq!(refused(&["nowhere"]), "changes: there is no commit nowhere in this repository\n");
    assert!(refused(&[]).starts_with("changes: changes BASE"));
}
