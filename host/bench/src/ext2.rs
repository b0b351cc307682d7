//! The check as a process of its own beside `e2fsck -fn`, on an ext2 image with the same number of files and bytes.

use crate::scratch::Scratch;
use crate::timing::{race, side, Effort, Side, Spread, Times};
use crate::volumes::Volume;
use std::fs;
use std::hint::black_box;
use std::io;
use std::path::{Path, PathBuf};
use std::process::{Command, Stdio};

/// Debian has these in /usr/sbin, which is not on every PATH.
pub fn tool(name: &str) -> PathBuf {
    let places = ["/usr/sbin", "/sbin", "/usr/bin"].map(|folder| Path::new(folder).join(name));
    places.into_iter().find(|path| path.exists()).unwrap_or_else(|| name.into())
}

fn quiet(command: &mut Command) -> io::Result<bool> {
    Ok(quiet_status(command)? == Some(0))
}

/// Runs a process to its end without a word; gives its status, unless a signal ended it.
pub fn quiet_status(command: &mut Command) -> io::Result<Option<i32>> {
    let quiet = command.stdin(Stdio::null()).stdout(Stdio::null()).stderr(Stdio::null());
    Ok(quiet.status()?.code())
}

/// The version that e2fsck tells, if it, mke2fs and debugfs are there.
pub fn version() -> Option<String> {
    let output = Command::new(tool("e2fsck")).arg("-V").output().ok()?;
    for other in ["mke2fs", "debugfs"] {
        Command::new(tool(other)).arg("-V").output().ok()?;
    }
    let text = String::from_utf8_lossy(&output.stderr).into_owned();
    text.lines().next().map(str::to_string)
}

/// A folder for each user with his files in it. No byte is zero: mke2fs would leave a hole for a block of zeros.
fn populate(folder: &Path, volume: &Volume) -> io::Result<()> {
    for (user, files) in volume.files.iter().enumerate() {
        let own = folder.join(format!("USER{user}"));
        fs::create_dir_all(&own)?;
        for (file, &pages) in files.iter().enumerate() {
            fs::write(own.join(format!("FILE{file}.DATA")), vec![b'N'; 2048 * pages as usize])?;
        }
    }
    Ok(())
}

/// Makes the ext2 image. Its block is 2,048 bytes as a page is, so that both have the same number of data blocks; inodes are those needed.
pub fn make_image(scratch: &Scratch, volume: &Volume) -> io::Result<PathBuf> {
    let (folder, image) = (scratch.path("tree"), scratch.path(&format!("{}.ext2", volume.name)));
    populate(&folder, volume)?;
    let (data, files) = (volume.data_bytes() / 2048, volume.file_count() as u64);
    let inodes = files + volume.files.len() as u64 + 32;
    let blocks = data * 21 / 20 + files / 8 + 2 * volume.files.len() as u64 * 8 + 64;
    let mut command = Command::new(tool("mke2fs"));
    command.args([
        "-q",
        "-F",
        "-t",
        "ext2",
        "-b",
        "2048",
        "-I",
        "128",
        "-m",
        "0",
        "-N",
        &inodes.to_string(),
        "-d",
    ]);
    let made = quiet(command.arg(&folder).arg(&image).arg(blocks.to_string()))?;
    fs::remove_dir_all(&folder)?;
    made.then_some(image).ok_or_else(|| io::Error::other("mke2fs failed"))
}

/// A side that runs a process to its end; it has to succeed.
fn process<'a>(mut command: Command) -> Side<'a> {
    side(move || assert!(quiet(&mut command).unwrap_or(false), "a timed process failed: {command:?}"))
}

/// A process of this program that does one thing with an image.
pub fn own_child(task: &str, image: &Path) -> io::Result<Command> {
    let mut command = Command::new(std::env::current_exe()?);
    command.arg(task).arg(image);
    Ok(command)
}

/// The command nord, if it was built beside this program.
pub fn nord() -> Option<PathBuf> {
    let path = std::env::current_exe().ok()?.with_file_name("nord");
    path.exists().then_some(path)
}

/// Figures of the check beside e2fsck: in process, as a process that reads and swaps a file, as one that maps a file, and as the command.
pub struct Beside {
    /// The files and blocks that e2fsck counts in its image.
    pub content: String,
    pub check: f64,
    pub reading: f64,
    pub mapping: f64,
    pub e2fsck: f64,
    pub check_ratio: Spread,
    pub reading_ratio: Spread,
    pub mapping_ratio: Spread,
    /// The command's time and ratio, if it is there.
    pub nord: Option<(f64, Spread)>,
}

/// The last line of e2fsck, without the image's name.
fn content(image: &Path) -> io::Result<String> {
    let output = Command::new(tool("e2fsck")).arg("-fn").arg(image).output()?;
    let text = String::from_utf8_lossy(&output.stdout).into_owned();
    Ok(text
        .lines()
        .last()
        .and_then(|line| line.split_once(": "))
        .map_or_else(String::new, |(_, rest)| rest.to_string()))
}

fn beside(content: String, times: &[Times]) -> Beside {
    let median = |n: usize| Spread::of(&times[n]).median;
    let ratio = |n: usize| Spread::of_ratio(&times[n], &times[3]);
    Beside {
        content,
        check: median(0),
        reading: median(1),
        mapping: median(2),
        e2fsck: median(3),
        check_ratio: ratio(0),
        reading_ratio: ratio(1),
        mapping_ratio: ratio(2),
        nord: (times.len() > 4).then(|| (median(4), ratio(4))),
    }
}

/// Races the check and e2fsck on the same content.
pub fn contest(scratch: &Scratch, volume: &Volume, effort: Effort) -> io::Result<Beside> {
    let ext2 = make_image(scratch, volume)?;
    let house = scratch.house_volume(volume)?;
    let native = scratch.native_volume(volume)?;
    let mut fsck = Command::new(tool("e2fsck"));
    fsck.arg("-fn").arg(&ext2);
    let words = &volume.words;
    let check = side(|| {
        black_box(proved::check(black_box(words)));
    });
    let reading = process(own_child("check-file", &house)?);
    let mapping = process(own_child("check-mapped", &native)?);
    let mut sides = vec![check, reading, mapping, process(fsck)];
    if let Some(nord) = nord() {
        let mut command = Command::new(nord);
        command.arg("check").arg(&house);
        sides.push(process(command));
    }
    let times = race(&mut sides, effort);
    drop(sides);
    let content = content(&ext2)?;
    [ext2, house].iter().try_for_each(fs::remove_file)?;
    Ok(beside(content, &times))
}
