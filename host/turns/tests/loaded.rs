//! Two builds of the library are loaded beside each other and measured, without valgrind: a script stands in for it.

use std::fs;
use std::os::unix::fs::PermissionsExt;
use std::path::{Path, PathBuf};
use std::process::{Command, Output};

/// A folder with libraries that goes away with the test.
struct Folder {
    path: PathBuf,
}

impl Drop for Folder {
    fn drop(&mut self) {
        let _ = fs::remove_dir_all(&self.path);
    }
}

/// Says that each check takes 50 instructions, and all else 1,000.
const VALGRIND: &str = "#!/bin/sh
for last; do :; done
case $last in --version) echo valgrind-0; exit ;; esac
echo \"==1== Collected : $((1000 + 50 * last))\" >&2
";

/// The header of a build whose replies have three numbers, which come back in registers.
const SHORT: &str = "#include <stddef.h>
#include <stdint.h>
typedef struct { uint32_t number, rule, value; } nord_reply;
nord_reply nord_check(const uint16_t *image, size_t words);
";

/// A library with that header, whose check of a sound image is right: it counts the pages that the bit file has as held.
const COUNTING: &str = "#include <nord.h>
nord_reply nord_check(const uint16_t *image, size_t words)
{
    const uint16_t *bits = image + 1024 * ((size_t)image[1020] << 16 | image[1021]);
    nord_reply reply = {0, 0, 0};
    for (size_t page = 0; page < words / 1024; page++)
        reply.value += bits[page / 16] >> page % 16 & 1;
    return reply;
}
";

/// A library with another answer.
const WRONG: &str = "#include <nord.h>
nord_reply nord_check(const uint16_t *image, size_t words) { (void)image; (void)words; nord_reply r = {3, 7, 0}; return r; }
";

/// A file, from this program's folder on.
fn here(path: &str) -> String {
    let path = Path::new(env!("CARGO_MANIFEST_DIR")).join(path);
    path.to_str().unwrap().to_string()
}

fn gcc(arguments: &[&str]) {
    let output = Command::new("gcc").args(arguments).output().unwrap();
    assert!(output.status.success(), "{}", String::from_utf8_lossy(&output.stderr));
}

impl Folder {
    fn new(name: &str) -> Folder {
        let path = std::env::temp_dir().join(format!("turns-{name}-{}", std::process::id()));
        fs::create_dir_all(&path).unwrap();
        Folder { path }
    }

    fn file(&self, name: &str) -> String {
        self.path.join(name).to_str().unwrap().to_string()
    }

    /// A build as a shared object: what it is made of, with the function that calls its check through its header, which lies in `header`.
    fn shared(&self, name: &str, header: &str, parts: &[&str]) -> String {
        let (check, out) = (here("check.c"), self.file(name));
        let include = format!("-I{header}");
        let before = ["-shared", "-fPIC", "-O2", "-Wl,-Bsymbolic", &include, &check, "-Wl,--whole-archive"];
        gcc(&[&before[..], parts, &["-Wl,--no-whole-archive", "-o", &out]].concat());
        out
    }

    /// The proved library.
    fn library(&self, name: &str) -> String {
        self.shared(name, &here("../include"), &[&here("../../target/host/libnord.a")])
    }

    /// A library in C, whose replies have three numbers.
    fn short(&self, name: &str, code: &str) -> String {
        fs::write(self.file("nord.h"), SHORT).unwrap();
        let source = self.file(name).replace(".so", ".c");
        fs::write(&source, code).unwrap();
        self.shared(name, &self.file(""), &[&source])
    }

    /// A run with this folder in front of all others that programs are looked for in, or alone.
    fn turns(&self, alone: bool, arguments: &[&str]) -> Output {
        let others = if alone {
            String::new()
        } else {
            format!(":{}", std::env::var("PATH").unwrap())
        };
        let mut command = Command::new(env!("CARGO_BIN_EXE_turns"));
        command.args(arguments).env("PATH", self.file("") + &others);
        command.output().unwrap()
    }

    fn with_valgrind(self) -> Folder {
        let script = self.file("valgrind");
        fs::write(&script, VALGRIND).unwrap();
        fs::set_permissions(&script, fs::Permissions::from_mode(0o755)).unwrap();
        self
    }
}

fn refused(output: &Output) -> String {
    assert!(!output.status.success());
    assert!(output.stdout.is_empty(), "{}", String::from_utf8_lossy(&output.stdout));
    String::from_utf8_lossy(&output.stderr).into_owned()
}

/// Both are measured on each volume.
fn measured(folder: &Folder, before: &str, after: &str) {
    let output = folder.turns(false, &["--quick", before, after]);
    assert!(output.status.success(), "{}", String::from_utf8_lossy(&output.stderr));
    let page = String::from_utf8(output.stdout).unwrap();
    assert!(page.starts_with("## The check, before and after\n"), "{page}");
    for volume in ["yard", "few", "many", "singles"] {
        let row = page.lines().find(|line| line.starts_with(&format!("| {volume} | "))).unwrap();
        assert!(row.ends_with(" | 3 | 50 | 50 | 1.0000 |"), "{row}");
    }
}

#[test]
fn both_are_timed_and_counted_on_each_volume() {
    let folder = Folder::new("both").with_valgrind();
    measured(&folder, &folder.library("before.so"), &folder.library("after.so"));
}

#[test]
fn replies_may_have_other_numbers_before() {
    let folder = Folder::new("short").with_valgrind();
    measured(&folder, &folder.short("before.so", COUNTING), &folder.library("after.so"));
}

#[test]
fn another_answer_is_told_and_nothing_is_printed() {
    let folder = Folder::new("wrong").with_valgrind();
    let (library, other) = (folder.library("before.so"), folder.short("wrong.so", WRONG));
    let wrong = refused(&folder.turns(false, &["--quick", &library, &other]));
    assert!(
        wrong.contains("wrong.so answers Told { number: 3, rule: 7, value: 0 }, and not"),
        "{wrong}"
    );
}

#[test]
fn what_is_missing_is_told() {
    let folder = Folder::new("missing");
    let missing = refused(&folder.turns(true, &["--quick", "before.so", "after.so"]));
    assert!(missing.contains("valgrind is not there"), "{missing}");
    let folder = folder.with_valgrind();
    let missing = refused(&folder.turns(false, &["--quick", "before.so", "after.so"]));
    assert!(missing.contains("before.so: No such file or directory"), "{missing}");
    assert!(refused(&folder.turns(false, &[])).contains("turns [--quick] BEFORE.so AFTER.so"));
}
