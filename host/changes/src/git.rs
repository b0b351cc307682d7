//! What git tells: commits, the working tree as a tree like theirs, the texts of a tree, and what differs between two.

use std::collections::BTreeMap;
use std::io::{self, Read, Write};
use std::path::{Path, PathBuf};
use std::process::{Command, Stdio};

/// Files by their paths.
pub type Texts = BTreeMap<String, String>;

/// A commit as a reader knows it.
pub struct Commit {
    pub hash: String,
    pub short: String,
    pub date: String,
    pub subject: String,
}

/// A file whose text or place differs; both paths are the same where it was not renamed, came or went.
#[derive(Debug, PartialEq, Eq)]
pub struct Difference {
    pub old: String,
    pub new: String,
    pub added: usize,
    pub removed: usize,
}

/// A repository, and a folder for the objects of its working tree, so that nothing is written into the repository itself.
pub struct Repository {
    root: PathBuf,
    objects: PathBuf,
    scratch: PathBuf,
}

impl Drop for Repository {
    fn drop(&mut self) {
        let _ = std::fs::remove_dir_all(&self.scratch);
    }
}

fn plain(folder: &Path, arguments: &[&str]) -> io::Result<String> {
    let output = Command::new("git").current_dir(folder).args(arguments).output()?;
    match output.status.success() {
        true => Ok(String::from_utf8_lossy(&output.stdout).trim_end().to_string()),
        false => Err(io::Error::other(String::from_utf8_lossy(&output.stderr).trim_end().to_string())),
    }
}

impl Repository {
    /// The repository that a folder lies in.
    pub fn around(folder: &Path) -> io::Result<Repository> {
        let root = PathBuf::from(plain(folder, &["rev-parse", "--show-toplevel"])?);
        let objects = root.join(plain(&root, &["rev-parse", "--git-path", "objects"])?);
        let scratch = std::env::temp_dir().join(format!("changes-{}-{:p}", std::process::id(), &objects));
        std::fs::create_dir_all(scratch.join("objects"))?;
        Ok(Repository { root, objects, scratch })
    }

    /// git, with the working tree's objects in reach.
    fn command(&self, arguments: &[&str]) -> Command {
        let mut command = Command::new("git");
        command.current_dir(&self.root).args(arguments);
        command.env("GIT_INDEX_FILE", self.scratch.join("index"));
        command.env("GIT_OBJECT_DIRECTORY", self.scratch.join("objects"));
        command.env("GIT_ALTERNATE_OBJECT_DIRECTORIES", &self.objects);
        command
    }

    fn said(&self, arguments: &[&str]) -> io::Result<String> {
        let output = self.command(arguments).output()?;
        match output.status.success() {
            true => Ok(String::from_utf8_lossy(&output.stdout).into_owned()),
            false => Err(io::Error::other(format!(
                "git {}: {}",
                arguments[0],
                String::from_utf8_lossy(&output.stderr).trim_end()
            ))),
        }
    }

    pub fn commit(&self, name: &str) -> io::Result<Commit> {
        let unknown = |_| io::Error::other(format!("there is no commit {name} in this repository"));
        let hash = self.said(&["rev-parse", "--verify", "--quiet", &format!("{name}^{{commit}}")]);
        let hash = hash.map_err(unknown)?.trim_end().to_string();
        let told = self.said(&["log", "-1", "--no-show-signature", "--date=short", "--format=%h%n%cd%n%s", &hash])?;
        let mut lines = told.lines().map(str::to_string);
        let mut next = || lines.next().unwrap_or_default();
        let (short, date, subject) = (next(), next(), next());
        Ok(Commit {
            hash,
            short,
            date,
            subject,
        })
    }

    /// The tree of a commit.
    pub fn tree(&self, commit: &Commit) -> io::Result<String> {
        Ok(self
            .said(&["rev-parse", &format!("{}^{{tree}}", commit.hash)])?
            .trim_end()
            .to_string())
    }

    /// The working tree as it is, with files that are not committed and without those that are ignored.
    pub fn working_tree(&self) -> io::Result<String> {
        self.said(&["add", "--all", "."])?;
        Ok(self.said(&["write-tree"])?.trim_end().to_string())
    }

    /// The texts of a tree whose paths are wanted.
    pub fn texts(&self, tree: &str, wanted: impl Fn(&str) -> bool) -> io::Result<Texts> {
        let listed = self.said(&["ls-tree", "-r", "-z", tree])?;
        let entries = listed.split_terminator('\0').filter_map(|entry| entry.split_once('\t'));
        let entries: Vec<(&str, &str)> = entries.filter(|(_, path)| wanted(path)).collect();
        let hashes: String = entries
            .iter()
            .filter_map(|(about, _)| about.rsplit(' ').next())
            .map(|hash| format!("{hash}\n"))
            .collect();
        let blobs = self.blobs(&hashes)?;
        Ok(entries.iter().map(|(_, path)| path.to_string()).zip(blobs).collect())
    }

    /// The texts of objects, whose names stand one to a line.
    fn blobs(&self, hashes: &str) -> io::Result<Vec<String>> {
        let mut command = self.command(&["cat-file", "--batch"]);
        let mut child = command.stdin(Stdio::piped()).stdout(Stdio::piped()).spawn()?;
        let (mut input, mut output) = (child.stdin.take().unwrap(), child.stdout.take().unwrap());
        let mut all = Vec::new();
        std::thread::scope(|scope| {
            let writing = scope.spawn(move || input.write_all(hashes.as_bytes()));
            output.read_to_end(&mut all)?;
            writing.join().unwrap()
        })?;
        child.wait()?;
        split_blobs(&all).ok_or_else(|| io::Error::other("git cat-file: not as expected"))
    }

    /// What differs between two trees in some paths; renames are those that git sees, of files at least half of which is alike.
    pub fn differences(&self, old: &str, new: &str, paths: &[&str]) -> io::Result<Vec<Difference>> {
        let told = self.said(&[&["diff-tree", "-r", "-z", "-M50%", "-l0", "--numstat", old, new, "--"], paths].concat())?;
        let mut parts = told.split_terminator('\0');
        let mut found = Vec::new();
        while let Some(part) = parts.next() {
            let cells: Vec<&str> = part.splitn(3, '\t').collect();
            let [added, removed, path] = cells[..] else { continue };
            let (old, new) = match path {
                "" => (parts.next().unwrap_or_default(), parts.next().unwrap_or_default()),
                path => (path, path),
            };
            found.push(Difference {
                old: old.into(),
                new: new.into(),
                added: added.parse().unwrap_or(0),
                removed: removed.parse().unwrap_or(0),
            });
        }
        Ok(found)
    }
}

/// Each object comes as `NAME blob SIZE`, a new line, its bytes and a new line.
fn split_blobs(mut all: &[u8]) -> Option<Vec<String>> {
    let mut texts = Vec::new();
    while !all.is_empty() {
        let end = all.iter().position(|&byte| byte == b'\n')?;
        let head = std::str::from_utf8(&all[..end]).ok()?;
        let size: usize = head.rsplit(' ').next()?.parse().ok()?;
        let text = all.get(end + 1..end + 1 + size)?;
        texts.push(String::from_utf8_lossy(text).into_owned());
        all = all.get(end + 2 + size..)?;
    }
    Some(texts)
}
