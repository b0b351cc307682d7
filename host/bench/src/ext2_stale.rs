//! Salvage as a process of its own beside `e2fsck -fy`, on an ext2 image with the same number of files and bytes whose block bitmap is stale.
//! Both files are written anew before each run, outside the timed part.

use crate::ext2::{make_image, own_child, quiet_status, tool};
use crate::scratch::{bytes, map_native, words, Scratch};
use crate::stale::stale;
use crate::timing::{race, Effort, Side, Spread, Times};
use crate::volumes::Volume;
use std::fmt::Write;
use std::fs::{self, OpenOptions};
use std::io::{self, Write as _};
use std::path::{Path, PathBuf};
use std::process::Command;
use std::time::{Duration, Instant};

/// Of as many blocks one is marked free that is not, as two of sixteen pages are on the other side.
const EVERY: u64 = 8;

/// e2fsck's status where it has corrected all errors, and where it leaves some.
const CORRECTED: i32 = 1;
const LEFT: i32 = 4;

/// debugfs's commands: `freeb` clears a block's bit in the bitmap and nothing else, `ssv` sets the free blocks of the superblock.
fn damage(blocks: u64) -> String {
    let mut script = String::new();
    for block in (EVERY..blocks).step_by(EVERY as usize) {
        writeln!(script, "freeb {block}").unwrap();
    }
    script + "ssv free_blocks_count 7\n"
}

/// Makes the image stale. e2fsck has to find that, to correct it, and to find nothing after that.
fn make_stale(scratch: &Scratch, volume: &Volume) -> io::Result<PathBuf> {
    let image = make_image(scratch, volume)?;
    let (script, copy) = (scratch.path("damage"), scratch.path("corrected.ext2"));
    fs::write(&script, damage(fs::metadata(&image)?.len() / 2048))?;
    let mut debugfs = Command::new(tool("debugfs"));
    quiet_status(debugfs.args(["-w", "-f"]).arg(&script).arg(&image))?;
    fs::copy(&image, &copy)?;
    let statuses = [fsck_status("-fn", &image)?, fsck_status("-fy", &copy)?, fsck_status("-fn", &copy)?];
    assert_eq!(statuses, [LEFT, CORRECTED, 0].map(Some), "{}: e2fsck mends the image", volume.name);
    [script, copy].iter().try_for_each(fs::remove_file)?;
    Ok(image)
}

fn fsck_status(how: &str, image: &Path) -> io::Result<Option<i32>> {
    quiet_status(Command::new(tool("e2fsck")).arg(how).arg(image))
}

/// A side that runs a process on a file, which is what it was before each run: written and on the disk before the clock starts. The process
/// has to end with this status.
fn process<'a>(mut command: Command, file: &'a Path, before: &'a [u8], status: i32) -> Side<'a> {
    Box::new(move |repeats| {
        let mut spent = Duration::ZERO;
        for _ in 0..repeats {
            write_through(file, before).expect("a file of the run can be written");
            let start = Instant::now();
            let ended = quiet_status(&mut command).unwrap_or(None);
            spent += start.elapsed();
            assert_eq!(ended, Some(status), "a timed process failed: {command:?}");
        }
        spent
    })
}

/// In place: a file that was cut off before would get new pages of the machine's each time, which both sides would meet cold.
fn write_through(path: &Path, bytes: &[u8]) -> io::Result<()> {
    let mut file = OpenOptions::new().write(true).create(true).truncate(false).open(path)?;
    file.write_all(bytes)?;
    file.sync_all()
}

/// Figures of a salvage beside e2fsck, process beside process.
pub struct Beside {
    /// Where the files lay.
    pub place: &'static str,
    pub salvage: f64,
    pub e2fsck: f64,
    pub ratio: Spread,
}

/// Races a process that maps and salvages a stale volume and e2fsck, with both files in the run's own folder, and again in memory if there is
/// room: there what is written through waits for no disk.
pub fn contest(scratch: &Scratch, volume: &Volume, effort: Effort) -> io::Result<Vec<Beside>> {
    let stale = stale(volume);
    let made = make_stale(scratch, volume)?;
    let (ours, theirs) = (bytes(&stale.words), fs::read(&made)?);
    fs::remove_file(made)?;
    let memory = Scratch::in_memory(ours.len() + theirs.len());
    let places = [Some(("disk", scratch)), memory.as_ref().map(|memory| ("memory", memory))];
    let raced = places.into_iter().flatten().map(|(place, folder)| {
        let times = race_in(folder, ours, &theirs, effort)?;
        Ok(Beside {
            place,
            salvage: Spread::of(&times[0]).median,
            e2fsck: Spread::of(&times[1]).median,
            ratio: Spread::of_ratio(&times[0], &times[1]),
        })
    });
    raced.collect()
}

/// Both processes on files of this folder; at the end each has to be mended.
fn race_in(folder: &Scratch, ours: &[u8], theirs: &[u8], effort: Effort) -> io::Result<Vec<Times>> {
    let (native, ext2) = (folder.path("stale.native"), folder.path("stale.ext2"));
    let mut fsck = Command::new(tool("e2fsck"));
    fsck.arg("-fy").arg(&ext2);
    let salvage = process(own_child("salvage-mapped", &native)?, &native, ours, 0);
    let e2fsck = process(fsck, &ext2, theirs, CORRECTED);
    let times = race(&mut [salvage, e2fsck], effort);
    let found = proved::check(words(&map_native(&native)?));
    assert_eq!((found.number, fsck_status("-fn", &ext2)?), (0, Some(0)), "both files are mended");
    [ext2, native].iter().try_for_each(fs::remove_file)?;
    Ok(times)
}
