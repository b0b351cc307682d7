//! Many files in and out of an image by the command, beside `mcopy -s` followed by `sync` on a FAT image as large. Images and folders are put back
//! before each run, outside the timed part, and all that is dirty by then is written through.

use crate::ext2::{nord, quiet_status, tool};
use crate::scratch::Scratch;
use crate::timing::{race, Effort, Side, Spread};
use std::fs;
use std::io;
use std::path::{Path, PathBuf};
use std::process::Command;
use std::time::{Duration, Instant};

/// How many files there are, of 1,000 bytes to 64,000.
pub const FILES: usize = 200;

/// The sectors of a FAT image of 32 MiB.
const SECTORS: &str = "65536";

/// Times of the two ways, and their ratio.
pub struct Way {
    pub nord: f64,
    pub mcopy: f64,
    pub ratio: Spread,
}

/// Whether the tools are there.
pub fn is_there() -> bool {
    let mtools = Command::new(tool("mcopy")).arg("--version").output().is_ok();
    mtools && nord().is_some()
}

/// A command that has to succeed.
fn done(command: &mut Command) -> io::Result<()> {
    match quiet_status(command)? {
        Some(0) => Ok(()),
        status => Err(io::Error::other(format!("{command:?}: status {status:?}"))),
    }
}

fn shell(line: String) -> Command {
    let mut command = Command::new("sh");
    command.args(["-c", &line]);
    command
}

/// The files, an empty FAT image and an empty volume, and both with the files.
struct Made {
    folder: PathBuf,
    nord: PathBuf,
}

impl Made {
    fn new(scratch: &Scratch, pages: u32) -> io::Result<Made> {
        let (folder, nord) = (scratch.path("many"), nord().ok_or_else(|| io::Error::other("nord is not built"))?);
        fs::create_dir_all(folder.join("in"))?;
        for file in 0..FILES {
            fs::write(
                folder.join(format!("in/FILE{file}.BIN")),
                vec![b'A' + (file % 26) as u8; 1_000 + 63_000 * file / FILES],
            )?;
        }
        let made = Made { folder, nord };
        done(&mut made.mcopy_shell(&format!("mformat -C -i empty.fat -T {SECTORS} -h 255 -s 63 ::")))?;
        made.nord(&format!("format empty.img FILES --pages {pages}"))?;
        made.nord("user add empty.img DOCK")?;
        made.nord(&format!("user give empty.img DOCK {}", pages - 100))?;
        fs::copy(made.path("empty.fat"), made.path("full.fat"))?;
        fs::copy(made.path("empty.img"), made.path("full.img"))?;
        done(&mut made.mcopy_shell("mcopy -s -i full.fat in ::/"))?;
        made.nord("import full.img DOCK in")?;
        Ok(made)
    }

    fn path(&self, name: &str) -> PathBuf {
        self.folder.join(name)
    }

    fn mcopy_shell(&self, line: &str) -> Command {
        shell(format!("cd '{}' && MTOOLS_SKIP_CHECK=1 {line}", self.folder.display()))
    }

    fn nord_shell(&self, line: &str) -> Command {
        shell(format!("cd '{}' && '{}' {line}", self.folder.display(), self.nord.display()))
    }

    fn nord(&self, line: &str) -> io::Result<()> {
        done(&mut self.nord_shell(line))
    }

    /// A side that puts things back, writes all through, and then runs a command.
    fn side<'a>(&'a self, back: impl Fn() -> io::Result<()> + 'a, mut command: Command) -> Side<'a> {
        Box::new(move |repeats| {
            let mut spent = Duration::ZERO;
            for _ in 0..repeats {
                back().and_then(|()| done(&mut Command::new("sync"))).expect("put back");
                let start = Instant::now();
                done(&mut command).expect("a timed process");
                spent += start.elapsed();
            }
            spent
        })
    }

    fn race(&self, sides: [Side; 2], effort: Effort) -> Way {
        let times = race(&mut sides.into_iter().collect::<Vec<_>>(), effort);
        Way {
            nord: Spread::of(&times[0]).median,
            mcopy: Spread::of(&times[1]).median,
            ratio: Spread::of_ratio(&times[0], &times[1]),
        }
    }

    /// Into images with their holes, as they were made, or without any, as `dd` copies a disk.
    fn into_images(&self, sparse: &'static str, effort: Effort) -> Way {
        let copy = |from, to| done(Command::new("cp").arg(sparse).args([self.path(from), self.path(to)]));
        let fresh = |from: &'static str, to: &'static str| move || copy(from, to);
        let ours = self.side(fresh("empty.img", "new.img"), self.nord_shell("import new.img DOCK in"));
        let theirs = self.side(
            fresh("empty.fat", "new.fat"),
            self.mcopy_shell("mcopy -s -i new.fat in ::/ && sync"),
        );
        self.race([ours, theirs], effort)
    }

    fn out_of_images(&self, effort: Effort) -> Way {
        let gone = |name: &'static str| move || remove(&self.path(name));
        let ours = self.side(gone("ours"), self.nord_shell("export full.img DOCK ours"));
        let theirs = self.side(
            gone("theirs"),
            self.mcopy_shell("mkdir theirs && mcopy -s -i full.fat ::/in theirs && sync"),
        );
        self.race([ours, theirs], effort)
    }
}

fn remove(folder: &Path) -> io::Result<()> {
    match folder.exists() {
        true => fs::remove_dir_all(folder),
        false => Ok(()),
    }
}

/// The ways: files into an image with holes, into one without, and out.
pub const WAYS: [&str; 3] = ["in", "in, an image without holes", "out"];

/// All files into an image of so many pages, and out of it.
pub fn contest(scratch: &Scratch, pages: u32, effort: Effort) -> io::Result<[Way; 3]> {
    let made = Made::new(scratch, pages)?;
    let [holes, dense] = ["--sparse=auto", "--sparse=never"].map(|sparse| made.into_images(sparse, effort));
    let ways = [holes, dense, made.out_of_images(effort)];
    fs::remove_dir_all(&made.folder)?;
    Ok(ways)
}
