//! Large images: the check says of a file, of which it reads what it touches, what it says of a pipe, which is read whole; and zeros take no room.

use crate::common::{disk, done, noise, run, Folder, Run, NORD};
use crate::traced;
use std::fs::{self, File};
use std::os::unix::fs::{FileExt, MetadataExt};
use std::os::unix::process::CommandExt;
use std::path::{Path, PathBuf};
use std::process::Command;

/// A volume of 16,384 pages with files of every shape: many of a few pages, one subindexed, one contiguous.
fn volume() -> (Folder, PathBuf) {
    let (folder, image) = disk(16384, 16000);
    let within = folder.path("in");
    fs::create_dir(&within).unwrap();
    for number in 0..200 {
        fs::write(
            within.join(format!("file-{number}.bin")),
            noise(number, 3000 * (number as usize % 7)),
        )
        .unwrap();
    }
    fs::write(within.join("large.bin"), noise(7, 3_000_000)).unwrap();
    done(&image, &format!("import IMAGE DOCK {}", within.display()));
    done(&image, "file create IMAGE DOCK/RUN --contiguous 5000");
    (folder, image)
}

/// The check of an image by standard input.
fn by_pipe(image: &Path) -> Run {
    let cat = format!("cat {} | {NORD} check - --json", image.display());
    Run::of(Command::new("sh").args(["-c", &cat]).output().unwrap())
}

/// Changes a word of the image file by chance, among those that the rules speak of and those of files; gives what was there.
fn hurt(image: &File, chance: u64) -> ([u8; 2], u64) {
    let drawn = noise(chance, 8);
    let pages = [8, 64, 2000, 16384][chance as usize % 4];
    let place = u64::from(u32::from_le_bytes([drawn[0], drawn[1], drawn[2], drawn[3]])) % (pages * 1024) * 2;
    let mut was = [0; 2];
    image.read_exact_at(&mut was, place).unwrap();
    image.write_all_at(&drawn[4..6], place).unwrap();
    (was, place)
}

#[test]
fn a_file_is_checked_as_a_pipe_is() {
    let (_folder, image) = volume();
    let file = File::options().read(true).write(true).open(&image).unwrap();
    let (mut sound, mut unsound) = (0, 0);
    for chance in 0..80 {
        let (was, place) = hurt(&file, chance);
        let [of_file, of_pipe] = [run(&image, "check IMAGE --json"), by_pipe(&image)];
        assert_eq!(
            (of_file.status, of_file.json()),
            (of_pipe.status, of_pipe.json()),
            "word {}",
            place / 2
        );
        match of_file.status {
            0 => sound += 1,
            _ => unsound += 1,
        }
        file.write_all_at(&was, place).unwrap();
    }
    assert!(sound > 10 && unsound > 10, "{sound} sound, {unsound} unsound");
    assert!(done(&image, "check IMAGE").starts_with("sound: "));
}

/// Who starts the command may hold back or ignore the signal by which the system tells of a touch.
#[test]
fn the_signal_is_heard_whoever_starts_the_command() {
    let (_folder, image) = volume();
    let held_back = || unsafe {
        let mut signals = std::mem::zeroed();
        libc::sigaddset(&mut signals, libc::SIGSEGV);
        libc::pthread_sigmask(libc::SIG_BLOCK, &signals, std::ptr::null_mut())
    };
    let ignored = || unsafe { libc::signal(libc::SIGSEGV, libc::SIG_IGN) as i32 };
    for hide in [held_back as fn() -> i32, ignored] {
        let mut command = Command::new(NORD);
        command.arg("check").arg(&image);
        // Nothing is done there but a call of the system.
        unsafe {
            command.pre_exec(move || {
                hide();
                Ok(())
            })
        };
        let run = Run::of(command.output().unwrap());
        assert_eq!((run.status, run.err.as_str()), (0, ""));
    }
}

/// All that a check reads of a volume with one large file are its blocks and entries.
#[test]
fn a_check_reads_what_it_touches() {
    let (folder, image) = disk(16384, 16000);
    let full = folder.put("full.bin", &noise(1, 15_000 * 2048));
    done(&image, &format!("write IMAGE DOCK/FULL {}", full.display()));
    let calls = traced::calls(&folder, "check IMAGE");
    if calls.is_empty() {
        return;
    }
    let reads = calls.iter().filter(|call| call.starts_with("pread64("));
    let bytes: u64 = reads.map(|call| call.rsplit("= ").next().unwrap().parse::<u64>().unwrap()).sum();
    // How much a touch brings is up to the machine's pages, of 4 KiB or 64.
    let all = 16384 * 2048;
    assert!((100_000..all / 4).contains(&bytes), "{bytes} bytes read of {all}");
}

/// An empty volume takes hardly a block on the disk, after each change too; what is not a zero is there.
#[test]
fn zeros_take_no_room_on_the_disk() {
    let (folder, image) = disk(16384, 16000);
    let room = |path: &Path| fs::metadata(path).unwrap().blocks() * 512;
    assert!(room(&image) < 1_000_000, "{} bytes", room(&image));
    assert_eq!(fs::metadata(&image).unwrap().len(), 16384 * 2048);
    // A copy without holes becomes one with them.
    let bytes = fs::read(&image).unwrap();
    let dense = folder.put("dense.img", &bytes);
    assert!(room(&dense) > 30_000_000);
    for image in [&image, &dense] {
        done(image, "user add IMAGE FLOCK");
        assert!(room(image) < 1_000_000, "{} bytes", room(image));
    }
    assert!(fs::read(&image).unwrap() == fs::read(&dense).unwrap());
    assert_eq!(done(&dense, "check IMAGE"), "sound: 5 of 16384 pages are held\n");
}
